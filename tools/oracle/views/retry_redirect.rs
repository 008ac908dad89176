
// ORACLE-BEGIN: reads the counter; and asks this very policy, begun at a given counter, what it makes of a verdict
pub(crate) type OracleRetryRedirect = RetryRedirect<Arc<dyn RetryPolicy + 'static>>;
impl<T> RetryRedirect<T> {
    pub(crate) fn oracle_count(&self) -> u32 {
        self.redirects_followed.load(Ordering::Relaxed)
    }
}
pub(crate) fn oracle_ruling(count: u32, inner: Arc<dyn RetryPolicy + 'static>, error: Error) -> RetryResult {
    let policy = RetryRedirect { inner, redirects_followed: AtomicU32::new(count) };
    policy.on_error(&RetryState::new(true), error)
}
// ORACLE-END
