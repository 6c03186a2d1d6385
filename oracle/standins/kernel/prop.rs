//! Stand-in for kernel/prop.rs: formulas with structural equality, and what the prover and the status ask of them.
use super::checker::identifier_context::IdentifierContext;
use std::fmt::{self, Display};

#[derive(Debug, Clone, PartialEq, Eq)]
pub enum PropParameter {
    Uninstantiated(String),
}

#[derive(Debug, Clone, PartialEq, Eq)]
pub enum Prop {
    True,
    False,
    Atom(String, Vec<PropParameter>),
    And(Box<Prop>, Box<Prop>),
    Or(Box<Prop>, Box<Prop>),
    Impl(Box<Prop>, Box<Prop>),
    ForAll {
        object_ident: String,
        object_type_ident: String,
        body: Box<Prop>,
    },
    Exists {
        object_ident: String,
        object_type_ident: String,
        body: Box<Prop>,
    },
}

#[derive(Debug)]
pub struct InstatiationError;

impl Prop {
    pub fn boxed(&self) -> Box<Self> {
        Box::new(self.clone())
    }

    pub fn has_quantifiers(&self) -> bool {
        match self {
            Prop::True | Prop::False | Prop::Atom(_, _) => false,
            Prop::And(fst, snd) | Prop::Or(fst, snd) | Prop::Impl(fst, snd) => {
                fst.has_quantifiers() || snd.has_quantifiers()
            }
            Prop::ForAll { .. } | Prop::Exists { .. } => true,
        }
    }

    pub fn has_free_parameters(&self) -> bool {
        self.has_free_parameters_under(&mut vec![])
    }

    fn has_free_parameters_under<'a>(&'a self, bound: &mut Vec<&'a str>) -> bool {
        match self {
            Prop::True | Prop::False => false,
            Prop::Atom(_, params) => params
                .iter()
                .any(|PropParameter::Uninstantiated(x)| !bound.contains(&x.as_str())),
            Prop::And(fst, snd) | Prop::Or(fst, snd) | Prop::Impl(fst, snd) => {
                fst.has_free_parameters_under(bound) || snd.has_free_parameters_under(bound)
            }
            Prop::ForAll {
                object_ident, body, ..
            }
            | Prop::Exists {
                object_ident, body, ..
            } => {
                bound.push(object_ident);
                let free = body.has_free_parameters_under(bound);
                bound.pop();
                free
            }
        }
    }

    pub fn alpha_eq(fst: &Prop, snd: &Prop) -> bool {
        fst == snd
    }

    pub fn instantiate_parameters_with_context(
        &mut self,
        _ctx: &IdentifierContext,
    ) -> Result<(), InstatiationError> {
        Ok(())
    }
}

impl Display for Prop {
    fn fmt(&self, f: &mut fmt::Formatter<'_>) -> fmt::Result {
        write!(f, "{:?}", self)
    }
}
