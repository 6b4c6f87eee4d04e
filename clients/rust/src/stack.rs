//! What a limit of depth takes of a stack.

/// How many bytes of a stack a limit of depth takes, with room besides.
pub fn stack_for(depth: u32) -> usize {
    (depth as usize).saturating_mul(8 << 10).saturating_add(256 << 10)
}

/// How many bytes the stack of this thread has, where the system says so.
#[cfg(target_os = "linux")]
pub(crate) fn stack_here() -> Option<usize> {
    use std::ffi::c_void;

    #[repr(C, align(16))]
    struct Attributes([u8; 256]);

    unsafe extern "C" {
        fn pthread_self() -> usize;
        fn pthread_getattr_np(thread: usize, attributes: &mut Attributes) -> i32;
        fn pthread_attr_getstack(attributes: &Attributes, at: &mut *mut c_void, size: &mut usize) -> i32;
        fn pthread_attr_destroy(attributes: &mut Attributes) -> i32;
    }

    let mut attributes = Attributes([0; 256]);
    let (mut at, mut size) = (std::ptr::null_mut(), 0);
    // SAFETY: the attributes have more room than the system's, and are read only where it has written them.
    unsafe {
        if pthread_getattr_np(pthread_self(), &mut attributes) != 0 {
            return None;
        }
        let told = pthread_attr_getstack(&attributes, &mut at, &mut size);
        pthread_attr_destroy(&mut attributes);
        (told == 0).then_some(size)
    }
}

#[cfg(not(target_os = "linux"))]
pub(crate) fn stack_here() -> Option<usize> {
    None
}
