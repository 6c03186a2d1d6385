//! The closure `get_prop_solvable_status` of rust/src/lib.rs, copied out: its enum is lines 76 to 82, the closure lines 116 to 133.
//! `oracle/build` compares both with lib.rs.
use crate::kernel::{prop::Prop, prove::prove};
use serde::{Deserialize, Serialize};
use tsify_next::Tsify;

#[derive(Clone, PartialEq, Eq, Tsify, Serialize, Deserialize)]
#[tsify(into_wasm_abi, from_wasm_abi)]
pub enum VerificationResultSolvableStatus {
    Solvable,
    Unsolvable,
    Unknown,
}

pub fn status(prop: &Prop) -> VerificationResultSolvableStatus {
    let get_prop_solvable_status = |prop: &Prop| {
        let solvable = prove(&prop).is_some();

        if solvable {
            VerificationResultSolvableStatus::Solvable
        } else {
            if !prop.has_quantifiers() && !prop.has_free_parameters() {
                return VerificationResultSolvableStatus::Unsolvable;
            }

            let negative_solvable = prove(&Prop::Impl(prop.boxed(), Prop::False.boxed())).is_some();
            if negative_solvable {
                return VerificationResultSolvableStatus::Unsolvable;
            }

            VerificationResultSolvableStatus::Unknown
        }
    };

    get_prop_solvable_status(prop)
}
