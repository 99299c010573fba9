use super::*;

extern "C" {
    fn fork() -> c_int;
    fn waitpid(child: c_int, status: *mut c_int, options: c_int) -> c_int;
    fn _exit(status: c_int) -> !;
}

const SEGMENT_FAULT: c_int = 11;

/// Whether the processor stops what a child process does with the address.
fn stopped(address: *mut u8, access: unsafe fn(*mut u8)) -> bool {
    // SAFETY: the child makes one access and ends; the parent waits for it.
    unsafe {
        let child = fork();
        assert!(child >= 0);
        if child == 0 {
            access(address);
            _exit(0);
        }
        let mut status = 0;
        assert_eq!(waitpid(child, &mut status, 0), child);
        assert!(status == 0 || status & 127 == SEGMENT_FAULT, "{status}");
        status != 0
    }
}

fn reading(address: *mut u8) -> bool {
    stopped(address, |address| unsafe {
        address.read_volatile();
    })
}

fn writing(address: *mut u8) -> bool {
    stopped(address, |address| unsafe { address.write_volatile(1) })
}

#[test]
fn an_access_past_the_edge_is_stopped() {
    for length in [1, 7, PAGE - 1, PAGE, PAGE + 1, 70_000] {
        let mut block = Block::new(&vec![5; length], Edge::End);
        let bytes = block.bytes_mut().as_mut_ptr_range();
        assert!(!reading(bytes.end.wrapping_sub(1)) && !writing(bytes.start));
        assert!(reading(bytes.end) && writing(bytes.end));
        let mut block = Block::new(&vec![5; length], Edge::Start);
        let bytes = block.bytes_mut().as_mut_ptr_range();
        assert!(!reading(bytes.start) && !writing(bytes.end.wrapping_sub(1)));
        assert!(reading(bytes.start.wrapping_sub(1)) && writing(bytes.start.wrapping_sub(1)));
    }
}

#[test]
fn an_empty_block_has_no_byte() {
    let end = Block::new(&[], Edge::End);
    assert!(end.bytes().is_empty() && reading(end.bytes().as_ptr().cast_mut()));
    let start = Block::new(&[], Edge::Start);
    assert!(reading(start.bytes().as_ptr().wrapping_sub(1).cast_mut()));
}

#[test]
fn writing_to_what_is_read_only_is_stopped() {
    let block = Block::read_only(&[1, 2, 3], Edge::End);
    assert_eq!(block.bytes(), [1, 2, 3]);
    let first = block.bytes().as_ptr().cast_mut();
    assert!(!reading(first) && writing(first));
    let pages = block.pages().start;
    drop(block);
    // Used again, they can be written to again.
    let mut block = Block::new(&[4], Edge::Start);
    assert_eq!(block.pages().start, pages);
    assert!(!writing(block.bytes_mut().as_mut_ptr()));
}
