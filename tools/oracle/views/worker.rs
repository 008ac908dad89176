
// ORACLE-BEGIN: reads only
impl<C> Worker<C> {
    fn oracle_probe(&self, at: &'static str) {
        use crate::oracle::probe;
        probe::publish_connector(self.connector.oracle_view());
        probe::publish_worker(probe::WorkerView {
            at,
            persisted_size: self.persisted_size,
            finalized: self.finalized,
            mark: self.self_flush_outstanding,
            capacity: self.replay_buffer.capacity(),
            stored: self.replay_buffer.unpersisted_bytes(),
            full: self.replay_buffer.is_full(),
            chunks: self.replay_buffer.chunks_to_replay().cloned().collect(),
            waiters: self
                .pending_requests
                .iter()
                .map(|p| (matches!(p.kind, PendingKind::Finalize), p.request.clone()))
                .collect(),
        });
    }
}
// ORACLE-END
