//! Stand-in for the crate's list of modules.
pub(crate) mod bound_predicate_visitor;
pub(crate) mod expression_evaluator;
pub(crate) mod predicate_visitor;
pub(crate) mod rewrite_not;
