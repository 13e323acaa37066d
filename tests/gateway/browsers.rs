//! Replies for browsers.

use super::rows::{Row, are_told, with_room};
use std::test::Fail;

/// A file of 56 bytes, whose caps are another program's, is put and asked for. Fields and their order are those of
/// docs/FORMATS.md, their values those of RFC 6266, RFC 8187 and RFC 9110.
const ROWS: &[Row<'static>] = &[
    // The file is put.
    (
        1,
        b"PUT /uri HTTP/1.1\r\nHost: g\r\nContent-Length: 56\r\n\r\naaaaaaaaaaaaaaaaaaaaaaaaaaaaaaaaaaaaaaaaaaaaaaaaaaaaaaaa",
        b"HTTP/1.1 200 OK\r\nContent-Type: text/plain; charset=utf-8\r\nContent-Length: 95\r\n\r\nURI:CHK:xciehu7wkhrkdhseyznarsl6n4:ro65en3n4zxwl3gfinnekkeqado3jxpde7tfaj3sr7als57h4qoa:3:10:56",
    ),
    // It has a tag, and nothing of it runs.
    (
        1,
        b"GET /uri/URI:CHK:xciehu7wkhrkdhseyznarsl6n4:ro65en3n4zxwl3gfinnekkeqado3jxpde7tfaj3sr7als57h4qoa:3:10:56 HTTP/1.1\r\nHost: g\r\n\r\n",
        b"HTTP/1.1 200 OK\r\nContent-Type: application/octet-stream\r\nContent-Length: 56\r\nAccept-Ranges: bytes\r\nX-Content-Type-Options: nosniff\r\nContent-Security-Policy: sandbox\r\nETag: \"URI:CHK-Verifier:sq4jz3p4ngj6es3fircm3jysru:ro65en3n4zxwl3gfinnekkeqado3jxpde7tfaj3sr7als57h4qoa:3:10:56\"\r\n\r\naaaaaaaaaaaaaaaaaaaaaaaaaaaaaaaaaaaaaaaaaaaaaaaaaaaaaaaa",
    ),
    // Who has it is told so, by a list of tags with a weak one, and by any tag.
    (
        1,
        b"GET /uri/URI:CHK:xciehu7wkhrkdhseyznarsl6n4:ro65en3n4zxwl3gfinnekkeqado3jxpde7tfaj3sr7als57h4qoa:3:10:56 HTTP/1.1\r\nHost: g\r\nIf-None-Match: \"x\", W/\"URI:CHK-Verifier:sq4jz3p4ngj6es3fircm3jysru:ro65en3n4zxwl3gfinnekkeqado3jxpde7tfaj3sr7als57h4qoa:3:10:56\"\r\n\r\n",
        b"HTTP/1.1 304 Not Modified\r\nETag: \"URI:CHK-Verifier:sq4jz3p4ngj6es3fircm3jysru:ro65en3n4zxwl3gfinnekkeqado3jxpde7tfaj3sr7als57h4qoa:3:10:56\"\r\n\r\n",
    ),
    (
        1,
        b"HEAD /uri/URI:CHK:xciehu7wkhrkdhseyznarsl6n4:ro65en3n4zxwl3gfinnekkeqado3jxpde7tfaj3sr7als57h4qoa:3:10:56 HTTP/1.1\r\nHost: g\r\nif-none-match: *\r\n\r\n",
        b"HTTP/1.1 304 Not Modified\r\nETag: \"URI:CHK-Verifier:sq4jz3p4ngj6es3fircm3jysru:ro65en3n4zxwl3gfinnekkeqado3jxpde7tfaj3sr7als57h4qoa:3:10:56\"\r\n\r\n",
    ),
    // Who has another is sent it.
    (
        1,
        b"GET /uri/URI:CHK:xciehu7wkhrkdhseyznarsl6n4:ro65en3n4zxwl3gfinnekkeqado3jxpde7tfaj3sr7als57h4qoa:3:10:56 HTTP/1.1\r\nHost: g\r\nIf-None-Match: \"x\"\r\n\r\n",
        b"HTTP/1.1 200 OK\r\nContent-Type: application/octet-stream\r\nContent-Length: 56\r\nAccept-Ranges: bytes\r\nX-Content-Type-Options: nosniff\r\nContent-Security-Policy: sandbox\r\nETag: \"URI:CHK-Verifier:sq4jz3p4ngj6es3fircm3jysru:ro65en3n4zxwl3gfinnekkeqado3jxpde7tfaj3sr7als57h4qoa:3:10:56\"\r\n\r\naaaaaaaaaaaaaaaaaaaaaaaaaaaaaaaaaaaaaaaaaaaaaaaaaaaaaaaa",
    ),
    // A range counts on condition of the tag, and of no other.
    (
        1,
        b"GET /uri/URI:CHK:xciehu7wkhrkdhseyznarsl6n4:ro65en3n4zxwl3gfinnekkeqado3jxpde7tfaj3sr7als57h4qoa:3:10:56 HTTP/1.1\r\nHost: g\r\nRange: bytes=2-5\r\nIf-Range: \"URI:CHK-Verifier:sq4jz3p4ngj6es3fircm3jysru:ro65en3n4zxwl3gfinnekkeqado3jxpde7tfaj3sr7als57h4qoa:3:10:56\"\r\n\r\n",
        b"HTTP/1.1 206 Partial Content\r\nContent-Type: application/octet-stream\r\nContent-Length: 4\r\nContent-Range: bytes 2-5/56\r\nAccept-Ranges: bytes\r\nX-Content-Type-Options: nosniff\r\nContent-Security-Policy: sandbox\r\nETag: \"URI:CHK-Verifier:sq4jz3p4ngj6es3fircm3jysru:ro65en3n4zxwl3gfinnekkeqado3jxpde7tfaj3sr7als57h4qoa:3:10:56\"\r\n\r\naaaa",
    ),
    (
        1,
        b"GET /uri/URI:CHK:xciehu7wkhrkdhseyznarsl6n4:ro65en3n4zxwl3gfinnekkeqado3jxpde7tfaj3sr7als57h4qoa:3:10:56 HTTP/1.1\r\nHost: g\r\nRange: bytes=2-5\r\nIf-Range: W/\"URI:CHK-Verifier:sq4jz3p4ngj6es3fircm3jysru:ro65en3n4zxwl3gfinnekkeqado3jxpde7tfaj3sr7als57h4qoa:3:10:56\"\r\n\r\n",
        b"HTTP/1.1 200 OK\r\nContent-Type: application/octet-stream\r\nContent-Length: 56\r\nAccept-Ranges: bytes\r\nX-Content-Type-Options: nosniff\r\nContent-Security-Policy: sandbox\r\nETag: \"URI:CHK-Verifier:sq4jz3p4ngj6es3fircm3jysru:ro65en3n4zxwl3gfinnekkeqado3jxpde7tfaj3sr7als57h4qoa:3:10:56\"\r\n\r\naaaaaaaaaaaaaaaaaaaaaaaaaaaaaaaaaaaaaaaaaaaaaaaaaaaaaaaa",
    ),
    (
        1,
        b"GET /uri/URI:CHK:xciehu7wkhrkdhseyznarsl6n4:ro65en3n4zxwl3gfinnekkeqado3jxpde7tfaj3sr7als57h4qoa:3:10:56 HTTP/1.1\r\nHost: g\r\nRange: bytes=2-5\r\n\r\n",
        b"HTTP/1.1 206 Partial Content\r\nContent-Type: application/octet-stream\r\nContent-Length: 4\r\nContent-Range: bytes 2-5/56\r\nAccept-Ranges: bytes\r\nX-Content-Type-Options: nosniff\r\nContent-Security-Policy: sandbox\r\nETag: \"URI:CHK-Verifier:sq4jz3p4ngj6es3fircm3jysru:ro65en3n4zxwl3gfinnekkeqado3jxpde7tfaj3sr7als57h4qoa:3:10:56\"\r\n\r\naaaa",
    ),
    // A name with a quote and a line end in it.
    (
        1,
        b"GET /uri/URI:CHK:xciehu7wkhrkdhseyznarsl6n4:ro65en3n4zxwl3gfinnekkeqado3jxpde7tfaj3sr7als57h4qoa:3:10:56?filename=a%22%0d%0a.PNG&save=T HTTP/1.1\r\nHost: g\r\n\r\n",
        b"HTTP/1.1 200 OK\r\nContent-Type: image/png\r\nContent-Length: 56\r\nAccept-Ranges: bytes\r\nX-Content-Type-Options: nosniff\r\nContent-Security-Policy: sandbox\r\nETag: \"URI:CHK-Verifier:sq4jz3p4ngj6es3fircm3jysru:ro65en3n4zxwl3gfinnekkeqado3jxpde7tfaj3sr7als57h4qoa:3:10:56\"\r\nContent-Disposition: attachment; filename=\"a___.PNG\"; filename*=UTF-8''a%22%0D%0A.PNG\r\n\r\naaaaaaaaaaaaaaaaaaaaaaaaaaaaaaaaaaaaaaaaaaaaaaaaaaaaaaaa",
    ),
    // A name in UTF-8; a page of HTML is not shown as one.
    (
        1,
        b"GET /uri/URI:CHK:xciehu7wkhrkdhseyznarsl6n4:ro65en3n4zxwl3gfinnekkeqado3jxpde7tfaj3sr7als57h4qoa:3:10:56?filename=%C3%A9%20b.html HTTP/1.1\r\nHost: g\r\n\r\n",
        b"HTTP/1.1 200 OK\r\nContent-Type: application/octet-stream\r\nContent-Length: 56\r\nAccept-Ranges: bytes\r\nX-Content-Type-Options: nosniff\r\nContent-Security-Policy: sandbox\r\nETag: \"URI:CHK-Verifier:sq4jz3p4ngj6es3fircm3jysru:ro65en3n4zxwl3gfinnekkeqado3jxpde7tfaj3sr7als57h4qoa:3:10:56\"\r\nContent-Disposition: inline; filename=\"__ b.html\"; filename*=UTF-8''%C3%A9%20b.html\r\n\r\naaaaaaaaaaaaaaaaaaaaaaaaaaaaaaaaaaaaaaaaaaaaaaaaaaaaaaaa",
    ),
    // A star within a tag is none.
    (
        1,
        b"GET /uri/URI:CHK:xciehu7wkhrkdhseyznarsl6n4:ro65en3n4zxwl3gfinnekkeqado3jxpde7tfaj3sr7als57h4qoa:3:10:56 HTTP/1.1\r\nHost: g\r\nIf-None-Match: \"a,*,b\"\r\n\r\n",
        b"HTTP/1.1 200 OK\r\nContent-Type: application/octet-stream\r\nContent-Length: 56\r\nAccept-Ranges: bytes\r\nX-Content-Type-Options: nosniff\r\nContent-Security-Policy: sandbox\r\nETag: \"URI:CHK-Verifier:sq4jz3p4ngj6es3fircm3jysru:ro65en3n4zxwl3gfinnekkeqado3jxpde7tfaj3sr7als57h4qoa:3:10:56\"\r\n\r\naaaaaaaaaaaaaaaaaaaaaaaaaaaaaaaaaaaaaaaaaaaaaaaaaaaaaaaa",
    ),
    // Who has it is told so before a range is looked at.
    (
        1,
        b"GET /uri/URI:CHK:xciehu7wkhrkdhseyznarsl6n4:ro65en3n4zxwl3gfinnekkeqado3jxpde7tfaj3sr7als57h4qoa:3:10:56 HTTP/1.1\r\nHost: g\r\nRange: bytes=99-\r\nIf-None-Match: \"URI:CHK-Verifier:sq4jz3p4ngj6es3fircm3jysru:ro65en3n4zxwl3gfinnekkeqado3jxpde7tfaj3sr7als57h4qoa:3:10:56\"\r\n\r\n",
        b"HTTP/1.1 304 Not Modified\r\nETag: \"URI:CHK-Verifier:sq4jz3p4ngj6es3fircm3jysru:ro65en3n4zxwl3gfinnekkeqado3jxpde7tfaj3sr7als57h4qoa:3:10:56\"\r\n\r\n",
    ),
    // Film may ask for more of its bytes.
    (
        1,
        b"GET /uri/URI:CHK:xciehu7wkhrkdhseyznarsl6n4:ro65en3n4zxwl3gfinnekkeqado3jxpde7tfaj3sr7als57h4qoa:3:10:56?filename=a.mp4 HTTP/1.1\r\nHost: g\r\n\r\n",
        b"HTTP/1.1 200 OK\r\nContent-Type: video/mp4\r\nContent-Length: 56\r\nAccept-Ranges: bytes\r\nX-Content-Type-Options: nosniff\r\nContent-Security-Policy: sandbox allow-same-origin\r\nETag: \"URI:CHK-Verifier:sq4jz3p4ngj6es3fircm3jysru:ro65en3n4zxwl3gfinnekkeqado3jxpde7tfaj3sr7als57h4qoa:3:10:56\"\r\nContent-Disposition: inline; filename=\"a.mp4\"; filename*=UTF-8''a.mp4\r\n\r\naaaaaaaaaaaaaaaaaaaaaaaaaaaaaaaaaaaaaaaaaaaaaaaaaaaaaaaa",
    ),
    // An empty name is none.
    (
        1,
        b"GET /uri/URI:CHK:xciehu7wkhrkdhseyznarsl6n4:ro65en3n4zxwl3gfinnekkeqado3jxpde7tfaj3sr7als57h4qoa:3:10:56?filename=&save=true HTTP/1.1\r\nHost: g\r\n\r\n",
        b"HTTP/1.1 200 OK\r\nContent-Type: application/octet-stream\r\nContent-Length: 56\r\nAccept-Ranges: bytes\r\nX-Content-Type-Options: nosniff\r\nContent-Security-Policy: sandbox\r\nETag: \"URI:CHK-Verifier:sq4jz3p4ngj6es3fircm3jysru:ro65en3n4zxwl3gfinnekkeqado3jxpde7tfaj3sr7als57h4qoa:3:10:56\"\r\nContent-Disposition: attachment\r\n\r\naaaaaaaaaaaaaaaaaaaaaaaaaaaaaaaaaaaaaaaaaaaaaaaaaaaaaaaa",
    ),
    // A file in its cap has no tag.
    (
        1,
        b"GET /uri/URI:LIT:mzxw6 HTTP/1.1\r\nHost: g\r\nIf-None-Match: *\r\n\r\n",
        b"HTTP/1.1 200 OK\r\nContent-Type: application/octet-stream\r\nContent-Length: 3\r\nAccept-Ranges: bytes\r\nX-Content-Type-Options: nosniff\r\nContent-Security-Policy: sandbox\r\n\r\nfoo",
    ),
    // No cache keeps a refusal.
    (
        1,
        b"GET /nothing HTTP/1.1\r\nHost: g\r\n\r\n",
        b"HTTP/1.1 404 Not Found\r\nContent-Type: text/plain; charset=utf-8\r\nContent-Length: 17\r\nCache-Control: no-store\r\n\r\nno such resource\n",
    ),
    // A check says where the shares are.
    (
        1,
        b"POST /uri/URI:CHK:xciehu7wkhrkdhseyznarsl6n4:ro65en3n4zxwl3gfinnekkeqado3jxpde7tfaj3sr7als57h4qoa:3:10:56?t=check&output=json HTTP/1.1\r\nHost: g\r\n\r\n",
        b"HTTP/1.1 200 OK\r\nContent-Type: application/json\r\nContent-Length: 309\r\n\r\n{\"results\":{\"count-corrupt-shares\":0,\"count-shares-expected\":10,\"count-shares-good\":10,\"count-shares-needed\":3,\"healthy\":true,\"list-corrupt-shares\":[],\"recoverable\":true,\"sharemap\":{\"0\":[0],\"1\":[0],\"2\":[0],\"3\":[0],\"4\":[0],\"5\":[0],\"6\":[0],\"7\":[0],\"8\":[0],\"9\":[0]}},\"storage-index\":\"sq4jz3p4ngj6es3fircm3jysru\"}",
    ),
];

#[test]
fn browsers_are_told_more(rt: HostRuntime) -> Result<(), Fail> {
    let mut gateway = with_room(rt.alloc(), 100_000)?.for_browsers();
    gateway.open(1, None)?;
    are_told(&mut gateway, ROWS)
}
