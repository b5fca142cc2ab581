//! Types of the keywords in the text formats of WebAssembly modules, components and scripts.

macro_rules! keywords {
    ($($name:ident $(= $word:literal)?,)*) => {
        $(custom_keyword!($name $(= $word)?);)*
    };
}

// A keyword that is not an identifier of Rust, or is a reserved one, follows the name of its type.
keywords! {
    acqrel, after, alias, any, anyref, arg, array, arrayref, assert_exception, assert_exhaustion,
    assert_invalid, assert_invalid_custom, assert_malformed, assert_malformed_custom, assert_return,
    assert_suspension, assert_trap, assert_unlinkable, before, binary, block, borrow, callback,
    cancellable, canon, case, catch, catch_all, catch_all_ref, catch_ref, char, code, component,
    cont, contref, core, data, declare, definition, delegate, describes, descriptor, dtor, elem,
    end, entry, eq, eqref, error, exact, exn, exnref, export, externref, f32, f32x4, f64, f64x2,
    field, first, flags, float32, float64, func, funcref, future, gc, get, global, i16, i16x8, i31,
    i31ref, i32, i32x4, i64, i64x2, i8, i8x16, implements, import, instance, instantiate, interface,
    invoke, item, language, last, lift, list, local, lower, map, memory, module, modulecode, needed,
    nocont, noexn, noextern, nofunc, none, null, nullcontref, nullexnref, nullexternref,
    nullfuncref, nullref, offset, on, option, outer, own, pagesize, param, parent, passive, quote,
    realloc, rec, record, register, rep, resource, result, s16, s32, s64, s8, sdk, seqcst, shared,
    start, stream, string, structref, sub, switch, table, tag, then, thread, tuple, u16, u32, u64,
    u8, v128, value, variant, wait, with,

    backpressure_dec = "backpressure.dec", backpressure_inc = "backpressure.inc", bool_ = "bool", context_get = "context.get",
    context_set = "context.set", core_type = "core-type", enum_ = "enum", error_context = "error-context",
    error_context_debug_message = "error-context.debug-message", error_context_drop = "error-context.drop", error_context_new = "error-context.new",
    export_info = "export-info", external_id = "external-id", false_ = "false", future_cancel_read = "future.cancel-read",
    future_cancel_write = "future.cancel-write", future_drop_readable = "future.drop-readable", future_drop_writable = "future.drop-writable",
    future_forward = "future.forward", future_new = "future.new", future_read = "future.read", future_write = "future.write",
    import_info = "import-info", mem_info = "mem-info", nan_arithmetic = "nan:arithmetic", nan_canonical = "nan:canonical",
    post_return = "post-return", processed_by = "processed-by", r#async = "async", r#do = "do", r#else = "else", r#extern = "extern",
    r#final = "final", r#if = "if", r#loop = "loop", r#mut = "mut", r#ref = "ref", r#struct = "struct", r#try = "try", r#type = "type",
    ref_func = "ref.func", ref_null = "ref.null", resource_drop = "resource.drop", resource_new = "resource.new", resource_rep = "resource.rep",
    runtime_path = "runtime-path", stream_cancel_read = "stream.cancel-read", stream_cancel_write = "stream.cancel-write",
    stream_drop_readable = "stream.drop-readable", stream_drop_writable = "stream.drop-writable", stream_forward = "stream.forward",
    stream_new = "stream.new", stream_read = "stream.read", stream_write = "stream.write", string_latin1_utf16 = "string-encoding=latin1+utf16",
    string_utf16 = "string-encoding=utf16", string_utf8 = "string-encoding=utf8", subtask_cancel = "subtask.cancel", subtask_drop = "subtask.drop",
    target_arch = "target-arch", task_cancel = "task.cancel", task_return = "task.return",
    thread_available_parallelism = "thread.available_parallelism", thread_index = "thread.index", thread_new_indirect = "thread.new-indirect",
    thread_resume_later = "thread.resume-later", thread_spawn_indirect = "thread.spawn-indirect", thread_spawn_ref = "thread.spawn-ref",
    thread_suspend = "thread.suspend", thread_suspend_then_promote = "thread.suspend-then-promote",
    thread_suspend_then_resume = "thread.suspend-then-resume", thread_yield = "thread.yield", thread_yield_then_promote = "thread.yield-then-promote",
    thread_yield_then_resume = "thread.yield-then-resume", true_ = "true", version_suffix = "version-suffix", waitable_join = "waitable.join",
    waitable_set_drop = "waitable-set.drop", waitable_set_new = "waitable-set.new", waitable_set_poll = "waitable-set.poll",
    waitable_set_wait = "waitable-set.wait",
}
