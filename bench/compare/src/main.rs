//! The comparison without a persistent vector.

fn main() {
    compare::main_with(None);
}
