
// Appended to a copy of the original, of which nothing is altered, so that a comparison sees its private parts.
impl RwkvTokenizer {
    /// Blob, offsets, `single`, roots and transitions.
    pub fn raw(&self) -> (&[u8], &[u32], &[i32; 256], &[u64], &[u64]) {
        let d = &*self.data;
        (&d.tok_blob, &d.tok_off, &d.single, &d.trie_roots, &d.transitions)
    }
    pub fn from_raw(tok_blob: Vec<u8>, tok_off: Vec<u32>, single: [i32; 256], trie_roots: Vec<u64>, transitions: Vec<u64>) -> Self {
        Self { data: Arc::new(TokenizerData { tok_blob, tok_off, single, trie_roots, transitions, partial: true }) }
    }
    pub fn match_at_exposed(&self, src: &[u8], i: usize) -> (u32, u8) {
        self.match_at(src, i)
    }
    pub fn literal_exposed(s: &str) -> Option<Vec<u8>> {
        let mut out = Vec::new();
        parse_python_literal_into(s, &mut out).map(|()| out)
    }
}
