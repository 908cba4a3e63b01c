//! Stand-in for how values are serialized: no case does.
pub(crate) mod _serde {
    use crate::Result;
    use crate::spec::{Literal, Type};

    #[derive(serde::Serialize, serde::Deserialize)]
    pub struct RawLiteral;

    impl RawLiteral {
        pub fn try_from(_: Literal, _: &Type) -> Result<Self> {
            unimplemented!()
        }

        pub fn try_into(self, _: &Type) -> Result<Option<Literal>> {
            unimplemented!()
        }
    }
}
