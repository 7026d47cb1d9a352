//! The gates in plain Rust, over three values.

#[derive(Clone, Copy, PartialEq)]
pub enum Value {
    Zero,
    One,
    Unknown,
}

#[derive(Clone, Copy, PartialEq)]
pub enum Kind {
    And,
    Nand,
    Or,
    Nor,
    Xor,
    Xnor,
    Not,
    Buff,
}

impl Value {
    pub fn of(bit: bool) -> Value {
        if bit { Value::One } else { Value::Zero }
    }

    pub fn letter(self) -> char {
        match self {
            Value::Zero => '0',
            Value::One => '1',
            Value::Unknown => 'x',
        }
    }

    fn not(self) -> Value {
        match self {
            Value::Zero => Value::One,
            Value::One => Value::Zero,
            Value::Unknown => Value::Unknown,
        }
    }
}

impl Kind {
    /// What no pin gives.
    pub fn first(self) -> Value {
        Value::of(matches!(self, Kind::And | Kind::Nand))
    }

    /// What one pin more gives.
    pub fn join(self, seen: Value, value: Value) -> Value {
        match self {
            Kind::And | Kind::Nand => match (seen, value) {
                (Value::Zero, _) | (_, Value::Zero) => Value::Zero,
                (Value::One, Value::One) => Value::One,
                _ => Value::Unknown,
            },
            Kind::Or | Kind::Nor => match (seen, value) {
                (Value::One, _) | (_, Value::One) => Value::One,
                (Value::Zero, Value::Zero) => Value::Zero,
                _ => Value::Unknown,
            },
            Kind::Xor | Kind::Xnor => match (seen, value) {
                (Value::Unknown, _) | (_, Value::Unknown) => Value::Unknown,
                (a, b) => Value::of(a != b),
            },
            Kind::Not | Kind::Buff => value,
        }
    }

    /// Whether this value of a pin decides the gate's.
    pub fn decides(self, value: Value) -> bool {
        match self {
            Kind::And | Kind::Nand => value == Value::Zero,
            Kind::Or | Kind::Nor => value == Value::One,
            Kind::Xor | Kind::Xnor => value == Value::Unknown,
            Kind::Not | Kind::Buff => true,
        }
    }

    /// The value of the gate, from what its pins gave together.
    pub fn shown(self, seen: Value) -> Value {
        match self {
            Kind::And | Kind::Or | Kind::Xor | Kind::Buff => seen,
            Kind::Nand | Kind::Nor | Kind::Xnor | Kind::Not => seen.not(),
        }
    }
}
