/// What a small server is set to, and what it answers.
pub mod settings {
    /// Where the server listens, and what it serves.
    pub struct Settings {
        host: String,
        port: u16,
        greeting: String,
        delay: Option<(u64, u64)>,
        r#type: Vec<String>,
    }
    /// The [`Settings`] where nothing else is said.
    pub fn default_settings() -> Settings {
        Settings {
            host: "localhost".to_string(),
            port: 8000 + 80,
            greeting: "It's \"up\": C:\\srv".to_string(),
            delay: None,
            r#type: Vec::new(),
        }
    }
    /// The `host` of a [`Settings`].
    pub fn settings_host(settings: &Settings) -> String {
        settings.host.clone()
    }
    /// The `port` of a [`Settings`].
    pub fn settings_port(settings: &Settings) -> u16 {
        settings.port.clone()
    }
    /// The `greeting` of a [`Settings`].
    pub fn settings_greeting(settings: &Settings) -> String {
        settings.greeting.clone()
    }
    /// The `delay` of a [`Settings`].
    pub fn settings_delay(settings: &Settings) -> Option<(u64, u64)> {
        settings.delay.clone()
    }
    /// The `type` of a [`Settings`].
    pub fn settings_type(settings: &Settings) -> Vec<String> {
        settings.r#type.clone()
    }
    /// All is well.
    pub const OK: u16 = 200;
    /// Whether it is [`OK`].
    pub fn is_ok(status: u16) -> bool {
        status == OK
    }
    /// Nothing has this name.
    pub const NOT_FOUND: u16 = (4 * 100) + 4;
    /// Whether it is [`NOT_FOUND`].
    pub fn is_not_found(status: u16) -> bool {
        status == NOT_FOUND
    }
    /// Another request is answered.
    pub const BUSY: u16 = 500 + 3;
    /// Whether it is [`BUSY`].
    pub fn is_busy(status: u16) -> bool {
        status == BUSY
    }
    /// The status of an answer. It is found by its name.
    pub fn status_of(name: &str) -> Option<u16> {
        let found: Option<u16> = None;
        let found = if name == "OK" { Some(OK) } else { found };
        let found = if name == "NOT_FOUND" { Some(NOT_FOUND) } else { found };
        let found = if name == "BUSY" { Some(BUSY) } else { found };
        found
    }
    /// The most bytes of a request.
    pub const BYTES: u64 = (60 + 4) * 1024;
    /// Whether it is [`BYTES`].
    pub fn is_bytes(limit: u64) -> bool {
        limit == BYTES
    }
    /// How long a request may take.
    pub const SECONDS: u64 = 30;
    /// Whether it is [`SECONDS`].
    pub fn is_seconds(limit: u64) -> bool {
        limit == SECONDS
    }
    /// What may be asked for at once. It is found by its name.
    pub fn limit_of(name: &str) -> Option<u64> {
        let found: Option<u64> = None;
        let found = if name == "BYTES" { Some(BYTES) } else { found };
        let found = if name == "SECONDS" { Some(SECONDS) } else { found };
        found
    }
}
