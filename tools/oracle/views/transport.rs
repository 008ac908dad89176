
// ORACLE-BEGIN: `start_worker` from outside, and views
impl AppendableObjectWriterTransport {
    pub(crate) fn oracle_start<T>(
        connector: Connector<T>,
        initial: BidiWriteObjectResponse,
        connection: Connection<<T as Client>::Stream>,
        generation: i64,
        payload: Option<Bytes>,
    ) -> Result<Self>
    where
        T: Client + Clone + Sync + Send + 'static,
        <T as Client>::Stream: TonicStreaming,
    {
        let payload = payload.map(|data| InitialPayload { crc32c: crc32c::crc32c(&data), data });
        Self::start_worker(connector, initial, connection, generation, payload)
    }
    pub(crate) fn oracle_view(&self) -> crate::oracle::probe::TransportView {
        crate::oracle::probe::TransportView {
            write_offset: self.write_offset,
            running: self.running_crc32c,
            held: self.coalescing_buffer.oracle_held().to_vec(),
        }
    }
    /// The worker's handle and one more sender, which keeps the intent channel open until the host closes.
    pub(crate) fn oracle_split(&mut self) -> (tokio::task::JoinHandle<Result<()>>, Sender<UploadIntent>) {
        (self.worker_handle.take().expect("just started"), self.tx.clone())
    }
}
// ORACLE-END
