use crate::RenderErrorReason;
use crate::context::Context;
use crate::decorators::{DecoratorDef, DecoratorResult};
use crate::error::RenderError;
use crate::limits; // zerwydd: limit 22
use crate::registry::Registry;
use crate::render::{Decorator, RenderContext};

#[derive(Clone, Copy)]
pub struct InlineDecorator;

fn get_name<'reg: 'rc, 'rc>(d: &Decorator<'rc>) -> Result<String, RenderError> {
    d.param(0)
        .ok_or_else(|| RenderErrorReason::ParamNotFoundForIndex("inline", 0).into())
        .and_then(|v| {
            v.value()
                .as_str()
                .map(std::borrow::ToOwned::to_owned)
                .ok_or_else(|| RenderErrorReason::InvalidParamType("String").into())
        })
}

impl DecoratorDef for InlineDecorator {
    fn call<'reg: 'rc, 'rc>(
        &self,
        d: &Decorator<'rc>,
        _: &'reg Registry<'reg>,
        _: &'rc Context,
        rc: &mut RenderContext<'reg, 'rc>,
    ) -> DecoratorResult {
        let name = get_name(d)?;

        let template = d
            .template()
            .ok_or(RenderErrorReason::BlockContentRequired)?;

        // zerwydd {
        // limit 22: an equal name in the same scope is replaced
        let fresh = rc.block().is_some_and(|b| b.get_local_partial(&name).is_none());
        limits::within(rc.entries() + usize::from(fresh), limits::ENTRIES, 22)?;
        // zerwydd }
        if let Some(block) = rc.block_mut() {
            block.set_local_partial(name, template);
        }

        Ok(())
    }
}

pub static INLINE_DECORATOR: InlineDecorator = InlineDecorator;

