//! Stands in for docs/src's module `ast`, of which docs/src has no `mod.rs`. The grammar parser only names the type.
use crate::Parser;
use std::marker::PhantomData;

/// An abstract syntax tree, which nothing makes here.
pub struct AST<'src>(PhantomData<&'src [u8]>);

impl<'src> From<Parser<'src>> for AST<'src> {
    fn from(_: Parser<'src>) -> Self {
        AST(PhantomData)
    }
}
