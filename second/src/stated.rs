//! The document's own traces, with the lines that it states for them under SC and TSO. Of those under PSO and WMO request 4 states one, PSO's of the
//! message passing; the others were worked out by hand, but for KNOT's, which both searches agree on.

use crate::trace::MODELS;

pub struct Stated {
    pub name: &'static str,
    pub text: &'static str,
    /// Behind the model's name, for each of `Model::KNOWN`.
    pub lines: [&'static str; 4],
}

impl Stated {
    /// What the program prints.
    pub fn output(&self) -> String {
        let lines = ["SC", "TSO", "PSO", "WMO"].iter().zip(&self.lines).take(MODELS);
        lines.map(|(name, line)| format!("{name}: {line}\n")).collect()
    }
}

pub const KNOT: &str = "\
0: M[1] := 11
0: M[5] == 1
0: M[0] := 2
0: M[8] := 1
0: sync
0: M[2] == 21
1: M[2] := 21
1: M[7] == 1
1: M[0] := 1
1: M[6] := 1
1: sync
1: M[1] == 11
2: M[1] := 12
2: M[5] := 1
3: M[6] == 1
3: M[1] == 12
4: M[2] := 22
4: M[7] := 1
5: M[8] == 1
5: M[2] == 22
";

pub const STATED: [Stated; 10] = [
    Stated { name: "empty text", text: "", lines: ["order", "order", "order", "order"] },
    Stated {
        name: "store buffers",
        text: "0: M[0] := 1\n0: M[1] == 0\n1: M[1] := 1\n1: M[0] == 0\n",
        lines: ["no order, circle 0 1 2 3 by 1 4 1 4", "order 1 2 3 0", "order 1 2 3 0", "order 1 2 3 0"],
    },
    Stated {
        name: "store buffers with fences",
        text: "0: M[0] := 1\n0: sync\n0: M[1] == 0\n1: M[1] := 1\n1: sync\n1: M[0] == 0\n",
        lines: [
            "no order, circle 0 2 3 5 by 1 4 1 4",
            "no order, circle 0 2 3 5 by 1 4 1 4",
            "no order, circle 0 2 3 5 by 1 4 1 4",
            "no order, circle 0 2 3 5 by 1 4 1 4",
        ],
    },
    Stated {
        name: "message passing",
        text: "0: M[0] := 1\n0: M[1] := 1\n1: M[1] == 1\n1: M[0] == 0\n",
        lines: ["no order, circle 0 1 2 3 by 1 2 1 4", "no order, circle 0 1 2 3 by 1 2 1 4", "order 1 2 3 0", "order 1 2 3 0"],
    },
    Stated {
        name: "own store not seen",
        text: "0: M[0] := 1\n0: M[0] == 0\n",
        lines: ["no order, circle 0 1 by 1 4", "no order, circle 0 1 by 5 4", "no order, circle 0 1 by 5 4", "no order, circle 0 1 by 5 4"],
    },
    Stated {
        name: "value lost again",
        text: "0: M[1] := 1\n1: M[1] == 0\n1: M[1] == 1\n1: M[1] == 0\n",
        lines: [
            "no order, circle 0 2 3 by 2 1 4",
            "no order, circle 0 2 3 by 2 1 4",
            "no order, circle 0 2 3 by 2 1 4",
            "no order, circle 0 2 3 by 2 1 4",
        ],
    },
    Stated {
        name: "own store seen early",
        text: "0: M[0] := 1\n0: M[0] == 1\n0: M[1] == 0\n1: M[1] := 1\n1: M[1] == 1\n1: M[0] == 0\n",
        lines: ["no order, circle 0 2 3 5 by 1 4 1 4", "order 1 2 3 4 5 0", "order 1 2 3 4 5 0", "order 1 2 3 4 5 0"],
    },
    Stated {
        name: "two swaps of one value",
        text: "1: M[3] := 31\n0: { M[3] == 31; M[3] := 178 }\n0: { M[3] == 178; M[3] := 198 }\n1: { M[3] == 178; M[3] := 59 }\n",
        lines: ["no order, circle 2 3 by 7 7", "no order, circle 2 3 by 7 7", "no order, circle 2 3 by 7 7", "no order, circle 2 3 by 7 7"],
    },
    Stated {
        name: "a swap of its own value",
        text: "0: { M[0] == 5; M[0] := 5 }\n",
        lines: ["no order, no source 0", "no order, no source 0", "no order, no source 0", "no order, no source 0"],
    },
    Stated {
        name: "KNOT",
        text: KNOT,
        lines: [
            "no order, none left",
            "no order, none left",
            "order 0 6 13 1 2 3 5 16 17 7 8 9 11 12 14 15 18 19",
            "order 0 2 3 6 8 9 13 1 5 14 16 17 7 11 12 15 18 19",
        ],
    },
];
