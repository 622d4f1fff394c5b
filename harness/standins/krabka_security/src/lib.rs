//! Stand-in for `krabka_security`. The listener protocol is Kafka's four, in
//! Kafka's order; SCRAM and tokens are outside the port and only compile.

#[derive(Debug, Clone, Copy, PartialEq, Eq)]
pub enum ListenerProtocol {
    Plaintext,
    Ssl,
    SaslPlaintext,
    SaslSsl,
}

#[derive(Debug, Clone, Copy, PartialEq, Eq, Hash)]
pub enum SaslMechanism {
    ScramSha256,
    ScramSha512,
}

#[derive(Debug, Clone, PartialEq, Eq)]
pub struct KafkaPrincipal {
    pub principal_type: String,
    pub name: String,
}

#[derive(Debug, Clone, PartialEq, Eq)]
pub struct ScramCredential {
    pub mechanism: SaslMechanism,
    pub salt: Vec<u8>,
    pub stored_key: Vec<u8>,
    pub server_key: Vec<u8>,
    pub iterations: u32,
}

pub fn compute_token_hmac(_secret_key: &[u8], _token_id: &str) -> Vec<u8> {
    unimplemented!("tokens are outside the port")
}
