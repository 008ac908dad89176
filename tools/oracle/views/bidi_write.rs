
// ORACLE-BEGIN
pub(crate) use retry_redirect::{OracleRetryRedirect, oracle_ruling};
// ORACLE-END
