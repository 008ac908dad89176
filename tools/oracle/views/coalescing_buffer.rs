
// ORACLE-BEGIN
impl CoalescingBuffer {
    pub(crate) fn oracle_held(&self) -> &[u8] {
        &self.buffer
    }
}
// ORACLE-END
