//! Lepugaso's calls, as C has them (shim/include/lepugaso.h).

/// `lepugaso_answer`.
#[repr(C)]
#[derive(Debug, PartialEq)]
pub struct Answer {
    pub refusal: u32,
    pub place: u32,
    pub value: u64,
}

#[cfg(not(feature = "emulated"))]
mod calls {
    use super::Answer;

    #[link(name = "lepugaso", kind = "static")]
    unsafe extern "C" {
        fn lepugaso_write(
            file: *const u8,
            file_len: usize,
            entry: u32,
            words: *const u32,
            words_len: usize,
            buf: *mut u8,
            buf_len: usize,
        ) -> Answer;
        fn lepugaso_read(
            file: *const u8,
            file_len: usize,
            entry: u32,
            buf: *const u8,
            buf_len: usize,
            words: *mut u32,
            words_len: usize,
        ) -> Answer;
        fn lepugaso_view(
            file: *const u8,
            file_len: usize,
            entry: u32,
            path: *const u32,
            path_len: usize,
            buf: *const u8,
            buf_len: usize,
            part: *mut *const u8,
            part_len: *mut usize,
        ) -> Answer;
        fn lepugaso_set(
            file: *const u8,
            file_len: usize,
            entry: u32,
            path: *const u32,
            path_len: usize,
            words: *const u32,
            words_len: usize,
            buf: *mut u8,
            buf_len: usize,
        ) -> Answer;
    }

    pub fn write(file: &[u8], entry: u32, words: &[u32], buf: &mut [u8]) -> Answer {
        // SAFETY: each pointer and length is a slice's, and `buf` is lent alone.
        unsafe {
            lepugaso_write(file.as_ptr(), file.len(), entry, words.as_ptr(), words.len(), buf.as_mut_ptr(), buf.len())
        }
    }

    pub fn read(file: &[u8], entry: u32, buf: &[u8], words: &mut [u32]) -> Answer {
        // SAFETY: as above, with `words` lent alone.
        unsafe {
            lepugaso_read(file.as_ptr(), file.len(), entry, buf.as_ptr(), buf.len(), words.as_mut_ptr(), words.len())
        }
    }

    pub fn view<'a>(file: &[u8], entry: u32, path: &[u32], buf: &'a [u8]) -> (Answer, &'a [u8]) {
        let (mut part, mut length) = (std::ptr::null(), 0);
        // SAFETY: as above, with places of this function for the part, which is one of `buf` whatever the answer is.
        unsafe {
            let answer = lepugaso_view(
                file.as_ptr(),
                file.len(),
                entry,
                path.as_ptr(),
                path.len(),
                buf.as_ptr(),
                buf.len(),
                &mut part,
                &mut length,
            );
            (answer, std::slice::from_raw_parts(part, length))
        }
    }

    pub fn set(file: &[u8], entry: u32, path: &[u32], word: u32, buf: &mut [u8]) -> Answer {
        // SAFETY: as above, with `buf` lent alone.
        unsafe {
            lepugaso_set(
                file.as_ptr(),
                file.len(),
                entry,
                path.as_ptr(),
                path.len(),
                &word,
                1,
                buf.as_mut_ptr(),
                buf.len(),
            )
        }
    }
}

/// The same calls in a process of their own (bench/host.c), which the environment names: the word for the call, the numbers and the bytes
/// go to its standard input, the answer and what was lent to be written, or the part that is viewed, come back.
#[cfg(feature = "emulated")]
mod calls {
    use super::Answer;
    use std::io::Write;
    use std::process::{Command, Stdio};

    fn call(what: u32, file: &[u8], entry: u32, words: &[u32], buf: &[u8]) -> (Answer, Vec<u8>) {
        let host = std::env::var("BENCH_HOST").expect("the host program");
        let mut parts = host.split(' ');
        let mut child = Command::new(parts.next().unwrap())
            .args(parts)
            .stdin(Stdio::piped())
            .stdout(Stdio::piped())
            .spawn()
            .expect("the host program runs");
        let mut said: Vec<u8> = [what, entry].iter().flat_map(|n| n.to_le_bytes()).collect();
        said.extend([file.len(), words.len(), buf.len()].iter().flat_map(|n| (*n as u64).to_le_bytes()));
        said.extend(file);
        said.extend(words.iter().flat_map(|w| w.to_le_bytes()));
        said.extend(buf);
        child.stdin.take().unwrap().write_all(&said).expect("the host program reads");
        let out = child.wait_with_output().expect("the host program ends").stdout;
        assert!(out.len() >= 16, "the host program answers");
        let word = |at: usize| u32::from_le_bytes(out[at..at + 4].try_into().unwrap());
        let value = u64::from_le_bytes(out[8..16].try_into().unwrap());
        (Answer { refusal: word(0), place: word(4), value }, out[16..].to_vec())
    }

    pub fn write(file: &[u8], entry: u32, words: &[u32], buf: &mut [u8]) -> Answer {
        let (answer, after) = call(0, file, entry, words, buf);
        buf.copy_from_slice(&after);
        answer
    }

    pub fn read(file: &[u8], entry: u32, buf: &[u8], words: &mut [u32]) -> Answer {
        let (answer, after) = call(1, file, entry, words, buf);
        for (w, b) in words.iter_mut().zip(after.chunks_exact(4)) {
            *w = u32::from_le_bytes(b.try_into().unwrap());
        }
        answer
    }

    pub fn view<'a>(file: &[u8], entry: u32, path: &[u32], buf: &'a [u8]) -> (Answer, &'a [u8]) {
        let (answer, part) = call(2, file, entry, path, buf);
        let found = &buf[answer.value as usize..][..part.len()];
        assert!(found == part);
        (answer, found)
    }

    pub fn set(file: &[u8], entry: u32, path: &[u32], word: u32, buf: &mut [u8]) -> Answer {
        let (answer, after) = call(3, file, entry, &[&[word], path].concat(), buf);
        buf.copy_from_slice(&after);
        answer
    }
}

pub use calls::{read, set, view, write};
