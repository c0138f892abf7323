//! The codes and their names. Made by `tools/codes` out of `specs` of `records`, `names` and `directives`: not edited by hand.

coded! {
    /// What an action is: the first word of its record.
    ActionCode from 1:
    /// Code 1.
    Deny,
    /// Code 2.
    Block,
    /// Code 3.
    Pass,
    /// Code 4.
    Allow,
    /// Code 5.
    Drop,
    /// Code 6.
    Redirect,
    /// Code 7.
    Chain,
    /// Code 8.
    Skip,
    /// Code 9.
    SkipAfter,
    /// Code 10.
    MultiMatch,
    /// Code 11.
    Id,
    /// Code 12.
    Phase,
    /// Code 13.
    Severity,
    /// Code 14.
    Msg,
    /// Code 15.
    Tag,
    /// Code 16.
    Rev,
    /// Code 17.
    Ver,
    /// Code 18.
    Maturity,
    /// Code 19.
    Accuracy,
    /// Code 20.
    LogData,
    /// Code 21.
    Status,
    /// Code 22.
    SetVar,
    /// Code 23.
    Capture,
    /// Code 24.
    InitCol,
    /// Code 25.
    ExpireVar,
    /// Code 26.
    Log,
    /// Code 27.
    NoLog,
    /// Code 28.
    AuditLog,
    /// Code 29.
    NoAuditLog,
    /// Code 30.
    SanitiseMatched,
    /// Code 31.
    Control,
    /// Code 32.
    Transformation,
}

coded! {
    /// What a setvar does with its variable: the fifth word of its record.
    ValueKind from 1:
    /// Code 1.
    String,
    /// Code 2.
    Int,
    /// Code 3.
    Increment,
    /// Code 4.
    Decrement,
    /// Code 5.
    Delete,
    /// Code 6.
    Macro,
}

coded! {
    /// What a directive is: the first word of its record.
    DirectiveCode from 1:
    /// Code 1.
    Rule,
    /// Code 2.
    Action,
    /// Code 3.
    Marker,
    /// Code 4.
    Defaults,
    /// Code 5.
    Unknown,
}

coded! {
    /// A variable, as a rule names it.
    VariableName from 0:
    /// `ARGS`
    Args,
    /// `ARGS_GET`
    ArgsGet,
    /// `ARGS_POST`
    ArgsPost,
    /// `ARGS_NAMES`
    ArgsNames,
    /// `ARGS_GET_NAMES`
    ArgsGetNames,
    /// `ARGS_POST_NAMES`
    ArgsPostNames,
    /// `ARGS_COMBINED_SIZE`
    ArgsCombinedSize,
    /// `REQUEST_URI`
    RequestUri,
    /// `REQUEST_URI_RAW`
    RequestUriRaw,
    /// `REQUEST_FILENAME`
    RequestFilename,
    /// `REQUEST_BASENAME`
    RequestBasename,
    /// `REQUEST_LINE`
    RequestLine,
    /// `REQUEST_METHOD`
    RequestMethod,
    /// `REQUEST_PROTOCOL`
    RequestProtocol,
    /// `REQUEST_HEADERS`
    RequestHeaders,
    /// `REQUEST_HEADERS_NAMES`
    RequestHeadersNames,
    /// `REQUEST_COOKIES`
    RequestCookies,
    /// `REQUEST_COOKIES_NAMES`
    RequestCookiesNames,
    /// `REQUEST_BODY`
    RequestBody,
    /// `REQUEST_BODY_LENGTH`
    RequestBodyLength,
    /// `QUERY_STRING`
    QueryString,
    /// `RESPONSE_STATUS`
    ResponseStatus,
    /// `RESPONSE_PROTOCOL`
    ResponseProtocol,
    /// `RESPONSE_HEADERS`
    ResponseHeaders,
    /// `RESPONSE_HEADERS_NAMES`
    ResponseHeadersNames,
    /// `RESPONSE_BODY`
    ResponseBody,
    /// `RESPONSE_CONTENT_TYPE`
    ResponseContentType,
    /// `RESPONSE_CONTENT_LENGTH`
    ResponseContentLength,
    /// `REMOTE_ADDR`
    RemoteAddr,
    /// `REMOTE_PORT`
    RemotePort,
    /// `REMOTE_HOST`
    RemoteHost,
    /// `REMOTE_USER`
    RemoteUser,
    /// `SERVER_ADDR`
    ServerAddr,
    /// `SERVER_PORT`
    ServerPort,
    /// `SERVER_NAME`
    ServerName,
    /// `TX`
    Tx,
    /// `SESSION`
    Session,
    /// `ENV`
    Env,
    /// `IP`
    Ip,
    /// `GLOBAL`
    Global,
    /// `RESOURCE`
    Resource,
    /// `USER`
    User,
    /// `GEO`
    Geo,
    /// `MATCHED_VAR`
    MatchedVar,
    /// `MATCHED_VARS`
    MatchedVars,
    /// `MATCHED_VAR_NAME`
    MatchedVarName,
    /// `MATCHED_VARS_NAMES`
    MatchedVarsNames,
    /// `TIME`
    Time,
    /// `TIME_EPOCH`
    TimeEpoch,
    /// `TIME_DAY`
    TimeDay,
    /// `TIME_HOUR`
    TimeHour,
    /// `TIME_MIN`
    TimeMin,
    /// `TIME_SEC`
    TimeSec,
    /// `TIME_WDAY`
    TimeWday,
    /// `TIME_MON`
    TimeMon,
    /// `TIME_YEAR`
    TimeYear,
    /// `FILES`
    Files,
    /// `FILES_SIZES`
    FilesSizes,
    /// `FILES_TMPNAMES`
    FilesTmpnames,
    /// `FILES_COMBINED_SIZE`
    FilesCombinedSize,
    /// `FILES_NAMES`
    FilesNames,
    /// `UNIQUE_ID`
    UniqueId,
    /// No rule can name it.
    InboundAnomalyScore,
    /// No rule can name it.
    OutboundAnomalyScore,
    /// `DURATION`
    Duration,
    /// No rule can name it.
    MultipartBoundaryQuoted,
    /// No rule can name it.
    MultipartBoundaryWhitespace,
    /// No rule can name it.
    MultipartDataAfter,
    /// No rule can name it.
    MultipartDataBefore,
    /// No rule can name it.
    MultipartFileLimitExceeded,
    /// No rule can name it.
    MultipartHeaderFolding,
    /// No rule can name it.
    MultipartInvalidHeaderFolding,
    /// No rule can name it.
    MultipartInvalidPart,
    /// No rule can name it.
    MultipartInvalidQuoting,
    /// No rule can name it.
    MultipartLfLine,
    /// No rule can name it.
    MultipartMissingSemicolon,
    /// No rule can name it.
    MultipartStrictError,
    /// No rule can name it.
    MultipartUnmatchedBoundary,
    /// `MULTIPART_PART_HEADERS`
    MultipartPartHeaders,
    /// `XML`
    Xml,
    /// No rule can name it.
    WebserverErrorLog,
    /// `HIGHEST_SEVERITY`
    HighestSeverity,
    /// `STATUS_LINE`
    StatusLine,
    /// `FULL_REQUEST`
    FullRequest,
    /// `FULL_REQUEST_LENGTH`
    FullRequestLength,
    /// `AUTH_TYPE`
    AuthType,
    /// `REQBODY_PROCESSOR`
    ReqBodyProcessor,
    /// `REQBODY_ERROR`
    ReqBodyError,
    /// `REQBODY_ERROR_MSG`
    ReqBodyErrorMsg,
    /// `REQBODY_PROCESSOR_ERROR`
    ReqBodyProcessorError,
    /// `REQBODY_PROCESSOR_ERROR_MSG`
    ReqBodyProcessorErrorMsg,
    /// `MULTIPART_STRICT_ERROR`
    MultipartStrictCheck,
}

coded! {
    /// An operator, as a rule names it.
    OperatorName from 0:
    /// `@rx`
    Rx,
    /// `@pm`
    Pm,
    /// `@pmfromfile`
    PmFromFile,
    /// `@pmf`
    Pmf,
    /// `@streq`
    StreQ,
    /// `@contains`
    Contains,
    /// `@containsword`
    ContainsWord,
    /// `@beginswith`
    BeginsWith,
    /// `@endswith`
    EndsWith,
    /// `@within`
    Within,
    /// `@strmatch`
    StrMatch,
    /// `@eq`
    Eq,
    /// `@ne`
    Ne,
    /// `@gt`
    Gt,
    /// `@ge`
    Ge,
    /// `@lt`
    Lt,
    /// `@le`
    Le,
    /// `@detectsqli`
    DetectSqli,
    /// `@detectxss`
    DetectXss,
    /// `@validateurlencoding`
    ValidateUrlEncoding,
    /// `@validateutf8encoding`
    ValidateUtf8Encoding,
    /// `@validatebyterange`
    ValidateByteRange,
    /// `@validatehash`
    ValidateHash,
    /// `@validatedtd`
    ValidateDtd,
    /// `@validateschema`
    ValidateSchema,
    /// `@verifycc`
    VerifyCc,
    /// `@verifyssn`
    VerifySsn,
    /// `@verifycpf`
    VerifyCpf,
    /// `@ipmatch`
    IpMatch,
    /// `@ipmatchfromfile`
    IpMatchFromFile,
    /// `@ipmatchf`
    IpMatchF,
    /// `@rbl`
    Rbl,
    /// `@geolookup`
    GeoLookup,
    /// `@gsblookup`
    GsbLookup,
    /// `@inspectfile`
    InspectFile,
    /// `@fuzzyhash`
    FuzzyHash,
    /// `@nomatch`
    NoMatch,
    /// `@unconditionalmatch`
    UnconditionalMatch,
    /// `@rsub`
    Rsub,
}

/// The name of each variable in rules, by code.
pub(crate) const VARIABLE_NAMES: [Option<&str>; 92] = [
    Some("ARGS"),
    Some("ARGS_GET"),
    Some("ARGS_POST"),
    Some("ARGS_NAMES"),
    Some("ARGS_GET_NAMES"),
    Some("ARGS_POST_NAMES"),
    Some("ARGS_COMBINED_SIZE"),
    Some("REQUEST_URI"),
    Some("REQUEST_URI_RAW"),
    Some("REQUEST_FILENAME"),
    Some("REQUEST_BASENAME"),
    Some("REQUEST_LINE"),
    Some("REQUEST_METHOD"),
    Some("REQUEST_PROTOCOL"),
    Some("REQUEST_HEADERS"),
    Some("REQUEST_HEADERS_NAMES"),
    Some("REQUEST_COOKIES"),
    Some("REQUEST_COOKIES_NAMES"),
    Some("REQUEST_BODY"),
    Some("REQUEST_BODY_LENGTH"),
    Some("QUERY_STRING"),
    Some("RESPONSE_STATUS"),
    Some("RESPONSE_PROTOCOL"),
    Some("RESPONSE_HEADERS"),
    Some("RESPONSE_HEADERS_NAMES"),
    Some("RESPONSE_BODY"),
    Some("RESPONSE_CONTENT_TYPE"),
    Some("RESPONSE_CONTENT_LENGTH"),
    Some("REMOTE_ADDR"),
    Some("REMOTE_PORT"),
    Some("REMOTE_HOST"),
    Some("REMOTE_USER"),
    Some("SERVER_ADDR"),
    Some("SERVER_PORT"),
    Some("SERVER_NAME"),
    Some("TX"),
    Some("SESSION"),
    Some("ENV"),
    Some("IP"),
    Some("GLOBAL"),
    Some("RESOURCE"),
    Some("USER"),
    Some("GEO"),
    Some("MATCHED_VAR"),
    Some("MATCHED_VARS"),
    Some("MATCHED_VAR_NAME"),
    Some("MATCHED_VARS_NAMES"),
    Some("TIME"),
    Some("TIME_EPOCH"),
    Some("TIME_DAY"),
    Some("TIME_HOUR"),
    Some("TIME_MIN"),
    Some("TIME_SEC"),
    Some("TIME_WDAY"),
    Some("TIME_MON"),
    Some("TIME_YEAR"),
    Some("FILES"),
    Some("FILES_SIZES"),
    Some("FILES_TMPNAMES"),
    Some("FILES_COMBINED_SIZE"),
    Some("FILES_NAMES"),
    Some("UNIQUE_ID"),
    None,
    None,
    Some("DURATION"),
    None,
    None,
    None,
    None,
    None,
    None,
    None,
    None,
    None,
    None,
    None,
    None,
    None,
    Some("MULTIPART_PART_HEADERS"),
    Some("XML"),
    None,
    Some("HIGHEST_SEVERITY"),
    Some("STATUS_LINE"),
    Some("FULL_REQUEST"),
    Some("FULL_REQUEST_LENGTH"),
    Some("AUTH_TYPE"),
    Some("REQBODY_PROCESSOR"),
    Some("REQBODY_ERROR"),
    Some("REQBODY_ERROR_MSG"),
    Some("REQBODY_PROCESSOR_ERROR"),
    Some("REQBODY_PROCESSOR_ERROR_MSG"),
    Some("MULTIPART_STRICT_ERROR"),
];

/// The name of each operator in rules, by code; letter case does not matter there.
pub(crate) const OPERATOR_NAMES: [&str; 39] = [
    "rx",
    "pm",
    "pmfromfile",
    "pmf",
    "streq",
    "contains",
    "containsword",
    "beginswith",
    "endswith",
    "within",
    "strmatch",
    "eq",
    "ne",
    "gt",
    "ge",
    "lt",
    "le",
    "detectsqli",
    "detectxss",
    "validateurlencoding",
    "validateutf8encoding",
    "validatebyterange",
    "validatehash",
    "validatedtd",
    "validateschema",
    "verifycc",
    "verifyssn",
    "verifycpf",
    "ipmatch",
    "ipmatchfromfile",
    "ipmatchf",
    "rbl",
    "geolookup",
    "gsblookup",
    "inspectfile",
    "fuzzyhash",
    "nomatch",
    "unconditionalmatch",
    "rsub",
];
