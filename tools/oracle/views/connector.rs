
// ORACLE-BEGIN: an opening with any spec and last persisted size (the opening dial is left out), the crate's test of a bucket, and a view
impl<T> Connector<T>
where
    T: Client + Clone + Send + 'static,
    <T as Client>::Stream: TonicStreaming,
{
    pub(crate) async fn oracle_open(
        &mut self,
        state: AppendObjectSpecState,
        last_persisted_size: i64,
    ) -> Result<(BidiWriteObjectResponse, Connection<T::Stream>)> {
        *self.spec.lock().expect("never poisoned") = state;
        let opened = self.connect_attempt_loop().await?;
        self.last_persisted_size = last_persisted_size;
        Ok(opened)
    }
}
impl<T> Connector<T> {
    pub(crate) fn oracle_view(&self) -> crate::oracle::probe::ConnectorView {
        crate::oracle::probe::ConnectorView {
            last_persisted_size: self.last_persisted_size,
            attempts: self.retry_state.as_ref().map_or(0, |s| s.attempt_count),
            retry_redirect: self.retry_redirect.clone(),
            spec: self.spec.clone(),
        }
    }
}
pub(crate) fn oracle_accepts_bucket(bucket: &str) -> bool {
    let spec = AppendObjectSpec { bucket: bucket.to_string(), ..AppendObjectSpec::default() };
    prepare_request(&AppendObjectSpecState::Append { spec, initial_chunk: None }, None).is_ok()
}
// ORACLE-END
