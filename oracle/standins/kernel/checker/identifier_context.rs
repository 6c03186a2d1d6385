//! Stand-in for kernel/checker/identifier_context.rs: names with their types, listed in the order in which they were added.
use crate::kernel::proof_term::Type;

#[derive(Debug, Clone)]
pub struct Identifier(String);

impl Identifier {
    pub fn name(&self) -> &String {
        &self.0
    }
}

#[derive(Debug, Clone)]
pub struct IdentifierContext(Vec<(Identifier, Type)>);

impl IdentifierContext {
    pub fn new() -> Self {
        Self(vec![])
    }

    pub fn add(&mut self, name: String, _type: Type) {
        self.0.push((Identifier(name), _type));
    }

    pub fn get_all_visible(&self) -> Vec<(Identifier, Type)> {
        self.0.clone()
    }
}
