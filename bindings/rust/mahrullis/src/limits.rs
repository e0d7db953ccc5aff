/// How far a run may go. A limit beyond its greatest value is not cut down: the run is refused ([`Code::Limit`](crate::Code::Limit)).
#[derive(Clone, Copy, Debug, PartialEq, Eq, Hash)]
pub struct Limits {
    /// Units: each definition, statement, expression and `adr` that is entered costs one. At most 1,000,000.
    pub fuel: u64,
    /// How many of these may be entered and unended at a time. At most 200.
    pub depth: u64,
    /// How many bindings may be made. At most 4,096.
    pub bindings: u64,
    /// How many cells VAR may take. At most 4,096.
    pub cells: u64,
    /// How many numbers may be put out. At most 4,096.
    pub output: u64,
}

impl Limits {
    /// Each at its greatest value.
    pub const GREATEST: Limits = Limits::new(1_000_000, 200, 4_096, 4_096, 4_096);

    /// All five, in document 01's order.
    pub const fn new(fuel: u64, depth: u64, bindings: u64, cells: u64, output: u64) -> Limits {
        Limits { fuel, depth, bindings, cells, output }
    }

    /// These, with another limit of fuel.
    pub const fn with_fuel(self, fuel: u64) -> Limits {
        Limits { fuel, ..self }
    }

    /// These, with another limit of depth.
    pub const fn with_depth(self, depth: u64) -> Limits {
        Limits { depth, ..self }
    }

    /// These, with another limit of bindings.
    pub const fn with_bindings(self, bindings: u64) -> Limits {
        Limits { bindings, ..self }
    }

    /// These, with another limit of cells.
    pub const fn with_cells(self, cells: u64) -> Limits {
        Limits { cells, ..self }
    }

    /// These, with another limit of output.
    pub const fn with_output(self, output: u64) -> Limits {
        Limits { output, ..self }
    }

    /// Whether no limit is beyond its greatest value.
    pub const fn are_admitted(self) -> bool {
        let most = Limits::GREATEST;
        self.fuel <= most.fuel && self.depth <= most.depth && self.bindings <= most.bindings && self.cells <= most.cells && self.output <= most.output
    }
}
