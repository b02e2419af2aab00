//! A build of the library that is loaded into this program as it runs, so that two of them can take turns.

use std::ffi::{c_char, c_int, c_void, CStr, CString};
use std::mem::transmute_copy;

use wickorchard::limits::{MOST_NODE_WORDS, MOST_POOL_WORDS, NODE_WORDS, RULE_WORDS};
use wickorchard::raw::{Answer, ListWriter};

/// More bytes than the text of a list can have.
const MOST_BYTES: usize = 1 << 16;

extern "C" {
    fn dlopen(file: *const c_char, how: c_int) -> *mut c_void;
    fn dlsym(library: *mut c_void, name: *const c_char) -> *mut c_void;
    fn dlerror() -> *const c_char;
}

/// Every name in the library is looked up as it is loaded.
const RTLD_NOW: c_int = 2;

/// A slice of words, as a C function takes it: where it begins, and its length.
type Words = *const u32;
type First = unsafe extern "C" fn(Words, u64, Words, u64, *mut Answer);
type All = unsafe extern "C" fn(Words, u64, Words, u64, *mut u32, u64, *mut Answer);
type TreeFirst = unsafe extern "C" fn(Words, u64, Words, u64, Words, u64, Words, u64, *mut Answer);
type TreeAll = unsafe extern "C" fn(Words, u64, Words, u64, Words, u64, Words, u64, *mut u32, u64, *mut Answer);

/// The calls of one build, and how many words it takes for a rule.
pub struct Library {
    pub rule_words: usize,
    check: unsafe extern "C" fn(Words, u64, *mut Answer),
    write: ListWriter,
    read: unsafe extern "C" fn(*const u8, u64, *mut u32, u64, *mut Answer),
    build: unsafe extern "C" fn(Words, u64, *mut u32, u64, *mut u32, u64, *mut Answer),
    line_first: First,
    scan_first: First,
    scan_all: All,
    tree_first: TreeFirst,
    tree_all: TreeAll,
}

/// The nodes and the pool of a tree.
pub type Tree = (Vec<u32>, Vec<u32>);

impl Library {
    pub fn load(file: &str) -> Library {
        let text = |words: &str| CString::new(words).expect("there is no zero byte in it");
        // SAFETY: the functions are as `include/wickorchard.h` declares them.
        unsafe {
            let library = dlopen(text(file).as_ptr(), RTLD_NOW);
            assert!(!library.is_null(), "{:?}", CStr::from_ptr(dlerror()));
            let named = |name| {
                let function = dlsym(library, text(name).as_ptr());
                assert!(!function.is_null(), "{:?}", CStr::from_ptr(dlerror()));
                function
            };
            let mut loaded = Library {
                rule_words: RULE_WORDS,
                check: transmute_copy(&named("wick_rule_check")),
                write: transmute_copy(&named("wick_rules_write")),
                read: transmute_copy(&named("wick_rules_read")),
                build: transmute_copy(&named("wick_build")),
                line_first: transmute_copy(&named("wick_line_first")),
                scan_first: transmute_copy(&named("wick_scan_first")),
                scan_all: transmute_copy(&named("wick_scan_all")),
                tree_first: transmute_copy(&named("wick_tree_first")),
                tree_all: transmute_copy(&named("wick_tree_all")),
            };
            // A rule of zeros is good, whatever its width.
            let takes = |words: &usize| loaded.check(&vec![0; *words])[0] == 0;
            loaded.rule_words = (1..=RULE_WORDS).find(takes).expect("it takes a rule of as many words, or of fewer");
            loaded
        }
    }

    /// The list as this build takes it. Where it has fewer words for a rule, those at the end are left out.
    pub fn own(&self, rules: &[u32]) -> Vec<u32> {
        rules.chunks_exact(RULE_WORDS).flat_map(|rule| rule[..self.rule_words].to_vec()).collect()
    }

    pub fn check(&self, rules: &[u32]) -> Answer {
        let mut answer = [u64::MAX; 8];
        // SAFETY: here and below, a slice's pointer and length are given together, and a slice that is written to is
        // borrowed alone.
        unsafe { (self.check)(rules.as_ptr(), rules.len() as u64, &mut answer) };
        answer
    }

    /// The text of a good list.
    pub fn write(&self, rules: &[u32]) -> Vec<u8> {
        let (mut text, mut answer) = (vec![0; MOST_BYTES], [u64::MAX; 8]);
        let (words, bytes) = (rules.len() as u64, text.len() as u64);
        unsafe { (self.write)(rules.as_ptr(), words, text.as_mut_ptr(), bytes, &mut answer) };
        assert_eq!(answer[0], 0, "the list is good, and there is room");
        text.truncate(answer[3] as usize);
        text
    }

    pub fn read(&self, text: &[u8], rules: &mut [u32]) -> Answer {
        let mut answer = [u64::MAX; 8];
        let (bytes, words) = (text.len() as u64, rules.len() as u64);
        unsafe { (self.read)(text.as_ptr(), bytes, rules.as_mut_ptr(), words, &mut answer) };
        answer
    }

    /// The list's tree; None where it is over the limits.
    pub fn build(&self, rules: &[u32]) -> Option<Tree> {
        let (mut nodes, mut pool) = (vec![0; MOST_NODE_WORDS], vec![0; MOST_POOL_WORDS]);
        let mut answer = [u64::MAX; 8];
        let (r, n, p) = (rules.len() as u64, nodes.len() as u64, pool.len() as u64);
        unsafe { (self.build)(rules.as_ptr(), r, nodes.as_mut_ptr(), n, pool.as_mut_ptr(), p, &mut answer) };
        nodes.truncate(NODE_WORDS * answer[3] as usize);
        pool.truncate(answer[4] as usize);
        (answer[0] == 0).then_some((nodes, pool))
    }

    pub fn line_first(&self, rules: &[u32], header: &[u32; 5]) -> Answer {
        first(self.line_first, rules, header)
    }

    pub fn scan_first(&self, rules: &[u32], header: &[u32; 5]) -> Answer {
        first(self.scan_first, rules, header)
    }

    pub fn scan_all(&self, rules: &[u32], header: &[u32; 5], out: &mut [u32]) -> Answer {
        let mut answer = [u64::MAX; 8];
        let (r, o) = (rules.len() as u64, out.len() as u64);
        unsafe { (self.scan_all)(rules.as_ptr(), r, header.as_ptr(), 5, out.as_mut_ptr(), o, &mut answer) };
        answer
    }

    pub fn tree_first(&self, rules: &[u32], (nodes, pool): &Tree, header: &[u32; 5]) -> Answer {
        let mut answer = [u64::MAX; 8];
        let (r, n, p) = (rules.len() as u64, nodes.len() as u64, pool.len() as u64);
        let (rules, nodes, pool, header) = (rules.as_ptr(), nodes.as_ptr(), pool.as_ptr(), header.as_ptr());
        unsafe { (self.tree_first)(rules, r, nodes, n, pool, p, header, 5, &mut answer) };
        answer
    }

    pub fn tree_all(&self, rules: &[u32], (nodes, pool): &Tree, header: &[u32; 5], out: &mut [u32]) -> Answer {
        let mut answer = [u64::MAX; 8];
        let (r, n, p, o) = (rules.len() as u64, nodes.len() as u64, pool.len() as u64, out.len() as u64);
        let (rules, nodes, pool, header) = (rules.as_ptr(), nodes.as_ptr(), pool.as_ptr(), header.as_ptr());
        unsafe { (self.tree_all)(rules, r, nodes, n, pool, p, header, 5, out.as_mut_ptr(), o, &mut answer) };
        answer
    }
}

fn first(call: First, rules: &[u32], header: &[u32; 5]) -> Answer {
    let mut answer = [u64::MAX; 8];
    unsafe { call(rules.as_ptr(), rules.len() as u64, header.as_ptr(), 5, &mut answer) };
    answer
}
