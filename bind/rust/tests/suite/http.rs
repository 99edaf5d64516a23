//! ILP over HTTP: requests and responses as they are written, and as other programs write them, in parts, at the limits, and while
//! memory is refused.

use ilpstream::refusing::{has_refused, refuse_none, refuse_only};
use ilpstream::{Error, Progress, Request, Response, answer_text, refusal_text, request_text};

const POST: &str =
    "POST /ilp HTTP/1.1\r\nAuthorization: Bearer t1\r\nContent-Length: 5\r\n\r\nhello";

/// As curl 7.88.1 sent it over loopback: `curl -H 'Authorization: Bearer t1' -H 'Content-Type: application/octet-stream'
/// --data-binary hello http://127.0.0.1:7770/ilp`.
const FROM_CURL: &str = "POST /ilp HTTP/1.1\r\nHost: 127.0.0.1:7770\r\nUser-Agent: curl/7.88.1\r\nAccept: */*\r\nAuthorization: Bearer t1\r\nContent-Type: application/octet-stream\r\nContent-Length: 5\r\n\r\nhello";

/// As nginx 1.22.1 passed that request on over loopback by `proxy_pass http://127.0.0.1:7770`, with no other setting.
const FROM_NGINX: &str = "POST /ilp HTTP/1.0\r\nHost: 127.0.0.1:7770\r\nConnection: close\r\nContent-Length: 5\r\nUser-Agent: curl/7.88.1\r\nAccept: */*\r\nAuthorization: Bearer t1\r\nContent-Type: application/octet-stream\r\n\r\nhello";

fn whole(account: usize, body: &[u8], taken: usize) -> Progress {
    Progress::Whole {
        account,
        body: body.to_vec(),
        taken,
    }
}

fn request() -> Request {
    Request::new(&["t0", "t1"]).unwrap()
}

/// What is said of a request that comes in two parts.
fn in_two(text: &[u8], cut: usize) -> Progress {
    let mut request = request();
    match request.feed(&text[..cut]).unwrap() {
        Progress::Wants(_) => request.feed(&text[cut..]).unwrap(),
        progress => {
            // (of a refused part nothing is read)
            assert_eq!(request.feed(&text[..cut]), Ok(progress.clone()));
            progress
        }
    }
}

#[test]
fn requests_are_judged_in_any_two_parts() {
    let is = |account| Ok(account);
    let rows: [(&str, Result<usize, u32>); 27] = [
        (POST, is(1)),
        (FROM_CURL, is(1)),
        (FROM_NGINX, is(1)),
        (
            "\r\n\nPOST /ilp HTTP/1.0\nauthorization: bEARER   t0\ncontent-length:05\ncontent-length: 5 \n\nhello",
            is(0),
        ),
        (
            "POST /ilp HTTP/1.1\r\nAuthorization: Basic t0\r\nAuthorization: Bearer t1\r\nContent-Length: 0\r\n\r\n",
            is(1),
        ),
        ("GET /other HTTP/1.1\r\n\r\n", Err(404)),
        ("GET /ilp HTTP/1.1\r\n\r\n", Err(405)),
        ("POST /ilp HTTP/1.1\r\n\r\n", Err(401)),
        (
            "POST /ilp HTTP/1.1\r\nAuthorization: Bearer t\r\n\r\n",
            Err(401),
        ),
        (
            "POST /ilp HTTP/1.1\r\nAuthorization: Bearer t11\r\n\r\n",
            Err(401),
        ),
        (
            "POST /ilp HTTP/1.1\r\nAuthorization: Bearert1\r\n\r\n",
            Err(401),
        ),
        (
            "POST /ilp HTTP/1.1\r\nAuthorization: Bearer t1\r\n\r\n",
            Err(411),
        ),
        (
            "POST /ilp HTTP/1.1\r\nAuthorization: Bearer t1\r\nContent-Length: 99999999999999999999\r\n\r\n",
            Err(413),
        ),
        (
            "POST /ilp HTTP/1.1\r\nAuthorization: Bearer t1\r\nContent-Length: +5\r\n\r\n",
            Err(400),
        ),
        (
            "POST /ilp HTTP/1.1\r\nAuthorization: Bearer t1\r\nContent-Length: 5, 5\r\n\r\n",
            Err(400),
        ),
        (
            "POST /ilp HTTP/1.1\r\nAuthorization: Bearer t1\r\nContent-Length: 5\r\nContent-Length: 5\r\n\r\nhello",
            is(1),
        ),
        (
            "POST /ilp HTTP/1.1\r\nAuthorization: Bearer t1\r\nContent-Length: 5\r\nContent-Length: 6\r\n\r\n",
            Err(400),
        ),
        (
            "POST /ilp HTTP/1.1\r\nAuthorization: Bearer t1\r\nContent-Length: +5\r\nTransfer-Encoding: x\r\n\r\n",
            Err(411),
        ),
        ("POST /ilp HTTP/1.1\r\nbad field\r\n\r\n", Err(400)),
        ("POST  /ilp HTTP/1.1\r\n\r\n", Err(400)),
        (
            "POST /ilp HTTP/1.1\r\nX-Folded: a\r\n b\r\nAuthorization: Bearer t1\r\nContent-Length: 0\r\n\r\n",
            Err(400),
        ),
        (
            "POST /ilp HTTP/1.1\r\nX-Empty:\r\nauthorization: bearer t0\r\ncontent-length: 1\r\n\r\nx",
            is(0),
        ),
        (
            "POST /ilp HTTP/1.1\r\nAUTHORIZATION: BEARER t9\r\nAuthorization: Bearer t1\r\nCONTENT-LENGTH: 1\r\nContent-Length: 001\r\n\r\nx",
            is(1),
        ),
        (
            "POST /ilp HTTP/1.1\r\nAuthorization: Bearer t1\r\nContent-Length:\r\n\r\n",
            Err(400),
        ),
        (
            "POST /ilp HTTP/1.1\r\nAuthorization: Bearer t1\r\nContent-Length: 1\r\nTransfer-Encoding:\r\n\r\nx",
            Err(411),
        ),
        (
            "POST /ilp HTTP/1.1\r\nAuthorization: Bearer t1\r\nContent-Length: 18446744073709551617\r\nContent-Length: 1\r\n\r\nx",
            Err(400),
        ),
        (
            "POST /ilp HTTP/1.1\r\nAuthorization: Bearer t1\r\nContent-Length: 18446744073709551617\r\nContent-Length: 018446744073709551617\r\n\r\n",
            Err(413),
        ),
    ];
    for (text, want) in rows {
        let body = text
            .split("\r\n\r\n")
            .last()
            .unwrap_or("")
            .split("\n\n")
            .last()
            .unwrap_or("");
        let want = match want {
            Ok(account) => whole(account, body.as_bytes(), text.len()),
            Err(status) => Progress::Status(status),
        };
        for cut in 0..text.len() {
            assert_eq!(in_two(text.as_bytes(), cut), want, "{text:?} cut at {cut}");
        }
    }
}

#[test]
fn responses_are_judged() {
    let rows: [(&str, Result<Progress, Error>); 8] = [
        (
            "HTTP/1.1 401 Unauthorized\r\nContent-Length: 0\r\n\r\n",
            Ok(Progress::Status(401)),
        ),
        (
            "HTTP/1.1 200 OK\r\nContent-Length: 17\r\n\r\n0123456789abcdef",
            Ok(Progress::Wants(1)),
        ),
        (
            "HTTP/1.1 200 OK\r\nContent-Length: 17\r\n",
            Ok(Progress::Wants(1)),
        ),
        ("HTTP/1.1 200 OK\r\n\r\n", Err(Error::BadHead)),
        (
            "HTTP/1.1 200 OK\r\nContent-Length: 1\r\nTransfer-Encoding: chunked\r\n\r\n",
            Err(Error::BadHead),
        ),
        (
            "HTTP/1.1 200 OK\r\nContent-Length: +1\r\n\r\n",
            Err(Error::BadHead),
        ),
        (
            "HTTP/1.1 200 OK\r\nContent-Length: 65536\r\n\r\n",
            Err(Error::BodyTooLong),
        ),
        ("HTTP/9 ok\r\n\r\n", Err(Error::BadHead)),
    ];
    for (text, want) in rows {
        let mut response = Response::new().unwrap();
        assert_eq!(response.feed(text.as_bytes()), want, "{text:?}");
        if want.is_err() {
            assert_eq!(response.feed(text.as_bytes()), want, "{text:?}");
        }
    }
}

#[test]
fn texts_are_written() {
    let body = [7; 70];
    let head = "POST /ilp HTTP/1.1\r\nHost: 127.0.0.1:7770\r\nAuthorization: Bearer t1\r\nContent-Type: application/octet-stream\r\nContent-Length: 70\r\nConnection: close\r\n\r\n";
    let request = request_text("127.0.0.1:7770", "t1", &body).unwrap();
    assert_eq!(request, [head.as_bytes(), &body].concat());
    let head = "HTTP/1.1 200 OK\r\nContent-Type: application/octet-stream\r\nContent-Length: 70\r\nConnection: close\r\n\r\n";
    assert_eq!(
        answer_text(&body).unwrap(),
        [head.as_bytes(), &body].concat()
    );
    let text = "HTTP/1.1 401 Unauthorized\r\nContent-Length: 0\r\nConnection: close\r\n\r\n";
    assert_eq!(refusal_text(401).unwrap(), text.as_bytes());
    let text =
        "HTTP/1.1 500 Internal Server Error\r\nContent-Length: 0\r\nConnection: close\r\n\r\n";
    assert_eq!(refusal_text(500).unwrap(), text.as_bytes());
    assert_eq!(refusal_text(200), Err(Error::Argument));
    assert_eq!(refusal_text(600), Err(Error::Argument));
}

#[test]
fn hosts_and_tokens_are_visible() {
    let (longest, longer) = ("~".repeat(255), "~".repeat(256));
    for (text, is_one) in [
        ("127.0.0.1:7770", true),
        ("!", true),
        (longest.as_str(), true),
        (longer.as_str(), false),
        ("", false),
        ("a b", false),
        ("t\r\n", false),
        ("\u{e9}", false),
        ("\u{7f}", false),
    ] {
        for written in [request_text(text, "t", b""), request_text("h", text, b"")] {
            assert_eq!(written.is_ok(), is_one, "{text:?}");
            assert!(is_one || written == Err(Error::Argument), "{text:?}");
        }
    }
}

#[test]
fn bodies_of_all_sizes() {
    for size in [0, 1, 65_535, 65_536] {
        let body = vec![b'z'; size];
        let head = format!("HTTP/1.1 200 OK\r\nContent-Length: {size}\r\n\r\n");
        let text = [head.as_bytes(), &body, b"more"].concat();
        let got = Response::new().unwrap().feed(&text);
        let head = format!(
            "POST /ilp HTTP/1.1\r\nAuthorization: Bearer t0\r\nContent-Length: {size}\r\n\r\n"
        );
        let asked = request().feed(&[head.as_bytes(), &body].concat());
        if size == 65_536 {
            assert_eq!(got, Err(Error::BodyTooLong));
            assert_eq!(asked, Ok(Progress::Status(413)));
        } else {
            assert_eq!(got, Ok(whole(0, &body, text.len() - 4)));
            assert_eq!(asked, Ok(whole(0, &body, head.len() + size)));
        }
    }
}

#[test]
fn heads_at_the_limits() {
    let head = "POST /ilp HTTP/1.1\r\nAuthorization: Bearer t1\r\nContent-Length: 0\r\n";
    for (others, is_one) in [(62, true), (63, false)] {
        let text = format!("{head}{}\r\n", "A: b\r\n".repeat(others));
        let progress = request().feed(text.as_bytes()).unwrap();
        assert_eq!(progress == whole(1, b"", text.len()), is_one, "{others}");
        assert!(is_one || progress == Progress::Status(400), "{others}");
    }
    for (filling, is_one) in [(8_120, true), (8_121, false)] {
        let text = format!("{head}X: {}\r\n\r\n", "x".repeat(filling));
        let progress = in_two(text.as_bytes(), 100);
        assert_eq!(progress == whole(1, b"", text.len()), is_one, "{filling}");
        assert!(is_one || progress == Progress::Status(400), "{filling}");
    }
}

/// Empty lines alone, byte by byte.
#[test]
fn empty_lines_have_a_limit() {
    let mut request = request();
    for _ in 0..8_191 {
        assert_eq!(request.feed(b"\n"), Ok(Progress::Wants(1)));
    }
    assert_eq!(request.feed(b"\n"), Ok(Progress::Status(400)));
}

/// Each request for memory is refused in turn: the reading then takes the same bytes again.
#[test]
fn a_refused_feed_is_made_again() {
    let text = POST.as_bytes();
    for cut in [10, 60, 70] {
        for n in 1.. {
            let mut request = request();
            assert!(matches!(request.feed(&text[..cut]), Ok(Progress::Wants(_))));
            refuse_only(n);
            let fed = request.feed(&text[cut..]);
            let met = has_refused();
            refuse_none();
            if !met {
                assert_eq!(fed, Ok(whole(1, b"hello", text.len())));
                assert!(1 < n);
                break;
            }
            assert_eq!(fed, Err(Error::HttpOutOfMemory), "{cut} at {n}");
            let again = request.feed(&text[cut..]);
            assert_eq!(again, Ok(whole(1, b"hello", text.len())), "{cut} at {n}");
        }
    }
}
