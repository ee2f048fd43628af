//! The one place where the functions of the library are called with a case and the buffers of a workspace.

/// Calls a function of the library with a case, its arguments and the buffers of a workspace.
macro_rules! call {
    ($function:ident, $case:expr, $workspace:expr $(, $argument:expr)*) => {{
        let (case, workspace): (&[u8], &mut $crate::Workspace) = ($case.as_bytes(), $workspace);
        // SAFETY: each pointer comes with the length of the slice or vector that it is of, which is borrowed during the call. The
        // four buffers are vectors of their own and borrowed mutably, so none overlaps another, the case or the requests. Any
        // bytes and lengths may be given, and the library keeps no pointer.
        unsafe {
            $crate::raw::$function(
                case.as_ptr(),
                case.len(),
                $($argument,)*
                workspace.words.as_mut_ptr(),
                workspace.words.len(),
                workspace.floats.as_mut_ptr(),
                workspace.floats.len(),
                workspace.marks.as_mut_ptr(),
                workspace.marks.len(),
                workspace.answers.as_mut_ptr(),
                workspace.answers.len(),
            )
        }
    }};
}
