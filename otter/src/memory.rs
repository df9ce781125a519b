//! The models by the names that people give them.

use clap::ValueEnum;
use wheelotter::Model;

#[derive(Clone, Copy, Debug, PartialEq, Eq, ValueEnum)]
pub enum Memory {
    /// One order of all operations, each core's in its own order
    Sc,
    /// As SC, but a core may read ahead of its own earlier stores
    Tso,
    /// As TSO, but stores to two addresses may pass each other
    Pso,
    /// Only operations at one address, and fences, keep their order
    Wmo,
}

impl Memory {
    pub fn model(self) -> Model {
        match self {
            Memory::Sc => Model::Sc,
            Memory::Tso => Model::Tso,
            Memory::Pso => Model::Pso,
            Memory::Wmo => Model::Wmo,
        }
    }

    pub fn name(self) -> &'static str {
        match self {
            Memory::Sc => "SC",
            Memory::Tso => "TSO",
            Memory::Pso => "PSO",
            Memory::Wmo => "WMO",
        }
    }
}
