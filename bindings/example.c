/* Reads a trace from standard input. Prints the answer to it, what is wrong with it and where, the verdict in numbers under each model, whether
 * 1 2 3 0 is an order, what is left of it where it is faulty, what the machine does under SC and TSO, whether a paper shows that there is no
 * order, and a short talk with a session under TSO. */
#include "wheelotter.h"

#include <stdio.h>

static uint8_t text[WHEELOTTER_TEXT + 1];
static size_t text_len;

/* A number of two bytes, the low one first. */
static unsigned number(const uint8_t *bytes) {
    return bytes[0] + 256u * bytes[1];
}

static void print_operations(const uint8_t *verdict) {
    for (size_t i = 0; i < number(verdict); i++) {
        printf(" %u", number(verdict + WHEELOTTER_OPERATIONS + 2 * i));
    }
}

static void print_rules(const uint8_t *verdict) {
    for (size_t i = 0; i < number(verdict); i++) {
        printf(" %u", verdict[WHEELOTTER_RULES + i]);
    }
}

static void print_answer(void) {
    uint8_t out[WHEELOTTER_REPORT];
    fwrite(out, 1, wheelotter_report(text, text_len, out, sizeof out), stdout);
}

/* The bad line is a part of our own text: nothing is copied. */
static void print_bad_line(void) {
    uint8_t wrong = wheelotter_number(text, text_len);
    if (wrong == WHEELOTTER_DONE) {
        printf("the text is good\n");
        return;
    }
    size_t start = wheelotter_start(text, text_len), end = wheelotter_end(text, text_len);
    printf("number %u on line %zu, bytes %zu to %zu: ", wrong, wheelotter_line(text, text_len), start, end);
    fwrite(text + start, 1, end - start, stdout);
    printf("\n");
}

static void print_verdict(uint8_t model) {
    uint8_t out[WHEELOTTER_VERDICT];
    uint8_t answer = wheelotter_verdict(text, text_len, model, out, sizeof out);
    printf("model %u: ", model);
    switch (answer) {
    case WHEELOTTER_ORDER:
        printf("order");
        print_operations(out);
        break;
    case WHEELOTTER_CIRCLE:
        printf("circle");
        print_operations(out);
        printf(" by");
        print_rules(out);
        break;
    case WHEELOTTER_NO_SOURCE:
        printf("no source %u", number(out + WHEELOTTER_OPERATIONS));
        break;
    case WHEELOTTER_NONE_LEFT:
        printf("none left");
        break;
    default:
        printf("refused %u", answer);
    }
    const uint16_t list[] = {1, 2, 3, 0};
    uint8_t why[WHEELOTTER_JUDGEMENT];
    answer = wheelotter_judge(text, text_len, model, list, 4, why, sizeof why);
    printf("; is 1 2 3 0 an order: ");
    if (answer == WHEELOTTER_VALID) {
        printf("yes\n");
    } else if (answer == WHEELOTTER_OUT_OF_TURN) {
        printf("no, %u comes before %u\n", number(why), number(why + 2));
    } else {
        printf("no, %u\n", answer);
    }
}

/* The steps that run 1 2 3 0 through, and how the steps 0 0 1 1 end. */
static void print_machine(uint8_t model) {
    const uint16_t order[] = {1, 2, 3, 0};
    uint8_t out[WHEELOTTER_REPLAY];
    uint8_t answer = wheelotter_steps(text, text_len, model, order, 4, out, sizeof out);
    printf("model %u: steps of 1 2 3 0:", model);
    if (answer == WHEELOTTER_REPLAYED) {
        for (size_t i = 0; i < number(out); i++) {
            printf(" %u", out[WHEELOTTER_STEPS_AT + i]);
        }
    } else {
        printf(" none, %u", answer);
    }
    const uint8_t steps[] = {0, 0, 1, 1};
    uint8_t place[WHEELOTTER_PLACE];
    answer = wheelotter_run(text, text_len, model, steps, 4, place, sizeof place);
    if (answer == WHEELOTTER_STUCK) {
        printf("; 0 0 1 1: stuck at %u\n", number(place));
    } else {
        printf("; 0 0 1 1: %u\n", answer);
    }
}

/* Whether five entries show that there is no order: 0 before 1, 1 before 2, 2 before 3 and 3 before 0, by rules 1 and 4, is a circle. */
static void print_paper(uint8_t model) {
    const uint16_t list[] = {1, 0, 1, 0, 4, 1, 2, 0, 1, 2, 3, 0, 4, 3, 0, 0, 0, 0, 0, 4, 0, 1, 2, 3};
    uint8_t answer = wheelotter_accepts(text, text_len, model, list, sizeof list / sizeof list[0]);
    if (answer == WHEELOTTER_ACCEPTED) {
        printf("model %u: the paper is accepted\n", model);
    } else if (answer == WHEELOTTER_NOT_ACCEPTED) {
        printf("model %u: the paper is not accepted\n", model);
    } else {
        printf("model %u: no paper, %u\n", model, answer);
    }
    uint16_t out[64];
    answer = wheelotter_paper(text, text_len, model, out, sizeof out / sizeof out[0]);
    if (answer == WHEELOTTER_SHOWN) {
        printf("model %u: a paper of %lu numbers:", model, out[0] + 65536ul * out[1]);
        for (size_t i = 0; i < out[0]; i++) {
            printf(" %u", out[WHEELOTTER_LIST + i]);
        }
        printf("\n");
    } else {
        printf("model %u: no paper to write, %u\n", model, answer);
    }
}

/* The words of what the loads read, and the reads that come back from them. */
static void print_signature(void) {
    uint64_t words[WHEELOTTER_RECORDS];
    uint16_t reads[WHEELOTTER_RECORDS];
    size_t count = wheelotter_words(text, text_len);
    size_t loads = wheelotter_loads(text, text_len);
    size_t answer = wheelotter_signature(text, text_len, words, count);
    if (answer == 0) {
        answer = wheelotter_reads(text, text_len, words, count, reads, loads);
    }
    printf("signature:");
    if (answer != 0) {
        printf(" refused %u\n", (unsigned)answer % 256);
        return;
    }
    for (size_t i = 0; i < count; i++) {
        printf(" %llu", (unsigned long long)words[i]);
    }
    printf("; reads:");
    for (size_t i = 0; i < loads; i++) {
        printf(" %u", reads[i]);
    }
    printf("\n");
}

/* Three runs of the program under SC: every load saw the first value; the text's own reads; and, where it has two words, each load saw the last of its list of two. */
static void print_night(void) {
    uint64_t words[3 * WHEELOTTER_RECORDS];
    static uint16_t out[3 * WHEELOTTER_BLOCK];
    size_t count = wheelotter_words(text, text_len);
    if (wheelotter_signature(text, text_len, words + count, count) != 0) {
        printf("night: none\n");
        return;
    }
    for (size_t i = 0; i < count; i++) {
        words[i] = 0;
        words[2 * count + i] = 1;
    }
    size_t answer = wheelotter_night(text, text_len, WHEELOTTER_SC, words, 3 * count, out, 3 * WHEELOTTER_BLOCK);
    if (answer != 0) {
        printf("night: refused %u\n", (unsigned)answer % 256);
        return;
    }
    for (size_t run = 0; run < 3; run++) {
        const uint16_t *block = out + run * WHEELOTTER_BLOCK;
        const char *kind = block[0] == WHEELOTTER_ORDER ? "order" : block[0] == WHEELOTTER_CIRCLE ? "circle" : "none left";
        printf("%s%s", run == 0 ? "night: " : "; ", kind);
        for (size_t i = 0; i < block[1]; i++) {
            printf(" %u", block[WHEELOTTER_BLOCK_OPERATIONS + i]);
        }
    }
    printf("\n");
}

/* The verdict within 20 steps. */
static void print_limited(uint8_t model) {
    uint8_t out[WHEELOTTER_LIMITED];
    uint8_t answer = wheelotter_limited(text, text_len, model, 20, out, sizeof out);
    if (answer < WHEELOTTER_ORDER && answer != WHEELOTTER_NO_SOURCE) {
        printf("model %u within 20 steps: refused %u\n", model, answer);
        return;
    }
    uint64_t steps = 0;
    for (size_t i = 0; i < 8; i++) {
        steps |= (uint64_t)out[WHEELOTTER_COUNTED + i] << (8 * i);
    }
    printf("model %u within 20 steps: %s %u\n", model, answer == WHEELOTTER_UNDECIDED ? "undecided after" : "decided, steps", (unsigned)steps);
}

/* What is left of a faulty trace. */
static void print_smaller(uint8_t model) {
    static uint8_t out[WHEELOTTER_SMALLER];
    uint8_t answer = wheelotter_smaller(text, text_len, model, out, sizeof out);
    printf("model %u cut down: ", model);
    switch (answer) {
    case WHEELOTTER_CUT:
        printf("left");
        for (size_t i = 0; i < number(out); i++) {
            printf(" %u", number(out + WHEELOTTER_OLDS + 2 * i));
        }
        printf(", %u bytes of text\n", number(out + 2));
        break;
    case WHEELOTTER_NO_SOURCE:
        printf("no source %u\n", number(out));
        break;
    case WHEELOTTER_NOTHING_WRONG:
        printf("nothing wrong\n");
        break;
    default:
        printf("refused %u\n", answer);
    }
}

static const char *word(uint8_t answer) {
    switch (answer) {
    case WHEELOTTER_DONE:
        return "done";
    case WHEELOTTER_HELD:
        return "held";
    case WHEELOTTER_NOT_HELD:
        return "not held";
    case WHEELOTTER_CONTRADICTED:
        return "contradicted";
    case WHEELOTTER_WAITS:
        return "waits";
    default:
        return "refused";
    }
}

/* How many bytes a packed file has, as it says itself. */
static size_t file_length(const uint8_t *file) {
    return WHEELOTTER_ENTRIES + WHEELOTTER_FIRST * (size_t)file[WHEELOTTER_FIRSTS] + WHEELOTTER_RECORD * (size_t)number(file + WHEELOTTER_COUNT);
}

/* The packed file of the text, and its text. */
static void print_packed(void) {
    static uint8_t packed[WHEELOTTER_PACKED], unpacked[WHEELOTTER_UNPACKED];
    uint8_t answer = wheelotter_pack(text, text_len, packed, sizeof packed);
    if (answer != WHEELOTTER_DONE) {
        printf("packed: refused %u line %u\n", answer, (unsigned)wheelotter_line(text, text_len));
        return;
    }
    uint8_t *file = packed + WHEELOTTER_BYTES_AT;
    size_t len = number(packed);
    printf("packed: %u bytes of %u\n", (unsigned)len, (unsigned)text_len);
    wheelotter_unpack(file, len, unpacked, sizeof unpacked);
    printf("unpacked: %u bytes\n", number(unpacked));
    static uint8_t session[WHEELOTTER_SESSION];
    uint8_t opened = wheelotter_open_file(file, len, WHEELOTTER_TSO, session, sizeof session);
    printf("opened from its file: %s; ask 3 2: %s\n", word(opened), word(wheelotter_ask(session, WHEELOTTER_HEAD + len, 3, 2)));
    file[WHEELOTTER_ENTRIES] = 4;
    printf("with another kind: number %u line %u\n", wheelotter_file_number(file, len), (unsigned)wheelotter_file_line(file, len));
}

/* Supposes 0 before 1, then 2 before 3, takes both back, and looks each time whether 3 before 2 is held. Then two records come: a load of core 0 that
 * waits, and its source. */
static void talk(void) {
    static uint8_t session[WHEELOTTER_SESSION];
    uint8_t opened = wheelotter_open(text, text_len, WHEELOTTER_TSO, session, sizeof session);
    printf("open: %s\n", word(opened));
    if (opened != WHEELOTTER_DONE) {
        return;
    }
    size_t len = WHEELOTTER_HEAD + file_length(session + WHEELOTTER_HEAD);
    printf("ask 3 2: %s\n", word(wheelotter_ask(session, len, 3, 2)));
    printf("suppose 0 1: %s\n", word(wheelotter_suppose(session, len, 0, 1)));
    printf("ask 3 2: %s\n", word(wheelotter_ask(session, len, 3, 2)));
    printf("suppose 2 3: %s\n", word(wheelotter_suppose(session, len, 2, 3)));
    printf("ask 3 2: %s\n", word(wheelotter_ask(session, len, 3, 2)));
    printf("take back: %s\n", word(wheelotter_take_back(session, len)));
    printf("ask 3 2: %s\n", word(wheelotter_ask(session, len, 3, 2)));
    printf("take back: %s\n", word(wheelotter_take_back(session, len)));
    printf("ask 3 2: %s\n", word(wheelotter_ask(session, len, 3, 2)));
    printf("take back: %s\n", word(wheelotter_take_back(session, len)));
    uint8_t record[WHEELOTTER_PLACE];
    printf("add a load of 9: %s", word(wheelotter_add(session, len + WHEELOTTER_RECORD, 0, 0, 2, 9, 0)));
    len += WHEELOTTER_RECORD;
    printf("; record 4 %s", word(wheelotter_waiting(session, len, record, sizeof record)));
    printf("; add its store: %s", word(wheelotter_add(session, len + WHEELOTTER_RECORD, 1, 1, 2, 0, 9)));
    len += WHEELOTTER_RECORD;
    printf("; ask 5 4: %s\n", word(wheelotter_ask(session, len, 5, 4)));
}

int main(void) {
    text_len = fread(text, 1, sizeof text, stdin);
    print_answer();
    print_bad_line();
    for (uint8_t model = 1; model <= WHEELOTTER_MODELS; model++) {
        print_verdict(model);
        print_limited(model);
        print_smaller(model);
    }
    print_machine(WHEELOTTER_SC);
    print_machine(WHEELOTTER_TSO);
    print_paper(WHEELOTTER_SC);
    print_paper(WHEELOTTER_TSO);
    print_packed();
    print_signature();
    print_night();
    talk();
    return 0;
}
