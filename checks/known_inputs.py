"""Inputs of a connection that are known to be read in more than one way, and what docs/SERVICE.md makes of each.

RFC 9112's own examples, and the forms by which one reader is led to take for a body what another takes for a request.
A row is a name, the input, and the statuses of the replies that are wanted, written down by hand: 200 for what the
procedure at `/` answers. `PROBE` stands behind each input that is no refusal, so that a reader that takes too little or
too much of the input shows it.
"""

PROBE = b"GET /probe HTTP/1.1\r\nHost: l\r\n\r\n"
HOST = b"Host: l\r\n"


def get(fields=b"", target=b"/x", version=b"HTTP/1.1"):
    return b"GET " + target + b" " + version + b"\r\n" + HOST + fields + b"\r\n"


def post(fields, body=b"", end=b"\r\n"):
    return b"POST /x HTTP/1.1" + end + b"Host: l" + end + fields + end + end + body


def chunked(body):
    return post(b"Transfer-Encoding: chunked", body)


EXAMPLES = [
    ("2.1, a request", b"GET /hello.txt HTTP/1.1\r\nUser-Agent: curl/7.64.1\r\nHost: www.example.com\r\n"
     b"Accept-Language: en, mi\r\n\r\n", [200, 200]),
    ("2.2, an empty line before a request", b"\r\n" + get(), [200, 200]),
    ("2.2, lines that end in LF alone", get().replace(b"\r", b""), [200, 200]),
    ("2.2, a bare CR in a value", get(b"X: a\rb\r\n"), [400]),
    ("2.2, a blank before the first field", b"GET /x HTTP/1.1\r\n X: a\r\n" + HOST + b"\r\n", [400]),
    ("3, two blanks", get(target=b" /x"), [400]),
    ("3, a blank in the target", get(target=b"/x y"), [400]),
    ("3, a tab for a blank", b"GET\t/x\tHTTP/1.1\r\n" + HOST + b"\r\n", [400]),
    ("3.1, a method in small letters", b"get /x HTTP/1.1\r\n" + HOST + b"\r\n", [501]),
    ("3.2, no Host", b"GET /x HTTP/1.1\r\n\r\n", [400]),
    ("3.2, two of Host", get(HOST), [400]),
    ("3.2.1, origin form", get(target=b"/where?q=now"), [200, 200]),
    ("3.2.2, absolute form", get(target=b"http://www.example.org/pub/WWW/TheProject.html"), [200, 200]),
    ("3.2.2, absolute form without a host", get(target=b"http:///x"), [400]),
    ("3.2.3, authority form", b"CONNECT www.example.com:80 HTTP/1.1\r\n" + HOST + b"\r\n", [501]),
    ("3.2.4, asterisk form", b"OPTIONS * HTTP/1.1\r\n" + HOST + b"\r\n", [501]),
    ("3.2.4, asterisk form with GET", get(target=b"*"), [400]),
    ("2.3, another version", get(version=b"HTTP/1.2"), [400]),
    ("2.3, HTTP/2", b"PRI * HTTP/2.0\r\n\r\nSM\r\n\r\n", [400]),
    ("2.3, HTTP/0.9", b"GET /x\r\n", [400]),
    ("2.3, HTTP/1.0", b"GET /x HTTP/1.0\r\n\r\n", [200]),
    ("5.1, a blank before the colon", get(b"X : a\r\n"), [400]),
    ("5.1, blanks round a value", get(b"X: \t a b \t\r\n"), [200, 200]),
    ("5.1, no blank behind the colon, and no value", get(b"X:a\r\nY:\r\n"), [200, 200]),
    ("5.1, no name", get(b": a\r\n"), [400]),
    ("5.1, no colon", get(b"X\r\n"), [400]),
    ("5.2, a folded field", get(b"X: a\r\n b\r\n"), [400]),
    ("5.5, a value with NUL", get(b"X: a\0b\r\n"), [400]),
    ("5.5, a value past ASCII", get(b"X: \xe4\xff\r\n"), [200, 200]),
    ("9.6, close", get(b"Connection: keep-alive, Close\r\n"), [200]),
    ("9.6, close in a second field", get(b"Connection: x\r\nConnection:\tclose\r\n"), [200]),
    ("9.3, HTTP/1.0 and keep-alive", b"GET /x HTTP/1.0\r\nConnection: keep-alive\r\n\r\n", [200]),
]

BODIES = [
    ("a length", post(b"Content-Length: 5", b"abcde"), [200, 200]),
    ("a length that says 0 and a body", post(b"Content-Length: 0"), [200, 200]),
    ("a length with a zero in front", post(b"Content-Length: 05", b"abcde"), [200, 200]),
    ("a length twice", post(b"Content-Length: 5\r\nContent-Length: 5", b"abcde"), [200, 200]),
    ("two lengths", post(b"Content-Length: 5\r\ncontent-length: 6", b"abcde"), [400]),
    ("two spellings of a length", post(b"Content-Length: 5\r\nContent-Length: 05", b"abcde"), [400]),
    ("a list of lengths", post(b"Content-Length: 5, 5", b"abcde"), [400]),
    ("a length with a sign", post(b"Content-Length: +5", b"abcde"), [400]),
    ("a negative length", post(b"Content-Length: -5", b"abcde"), [400]),
    ("a length in hexadecimal", post(b"Content-Length: 0x5", b"abcde"), [400]),
    ("a length with a point", post(b"Content-Length: 5.0", b"abcde"), [400]),
    ("a length with a blank in it", post(b"Content-Length: 5 0", b"abcde"), [400]),
    ("no length in the field", post(b"Content-Length:", b"abcde"), [400]),
    ("a length of 20 digits", post(b"Content-Length: 00000000000000000005", b"abcde"), [400]),
    ("a length of 19 digits", post(b"Content-Length: 0000000000000000005", b"abcde"), [200, 200]),
    ("a length that is too large", post(b"Content-Length: 8388609"), [413]),
    ("a length past 64 bits", post(b"Content-Length: 9999999999999999999"), [413]),
    ("a blank before the colon of the length", post(b"Content-Length : 5", b"abcde"), [400]),
    ("a GET with a body", get(b"Content-Length: 5\r\n") + b"abcde", [200, 200]),
    ("chunks", chunked(b"3\r\nabc\r\n2\r\nde\r\n0\r\n\r\n"), [200, 200]),
    ("chunks, the coding in capitals behind a tab", post(b"transfer-ENCODING:\tCHUNKED", b"0\r\n\r\n"), [200, 200]),
    ("chunks with extensions", chunked(b"3;a=b;c=\"d\"\r\nabc\r\n0 \t;x\r\n\r\n"), [200, 200]),
    ("chunks with a trailer that is a length", chunked(b"0\r\nContent-Length: 5\r\n\r\n"), [200, 200]),
    ("a size in capitals with zeros in front", chunked(b"00A\r\n0123456789\r\n0\r\n\r\n"), [200, 200]),
    ("a size of 15 digits", chunked(b"000000000000001\r\na\r\n0\r\n\r\n"), [200, 200]),
    ("a size of 16 digits", chunked(b"0000000000000001\r\na\r\n0\r\n\r\n"), [400]),
    ("a size past 64 bits", chunked(b"10000000000000005\r\nabcde\r\n0\r\n\r\n"), [400]),
    ("a size that is too large", chunked(b"fffffffffffffff\r\n"), [413]),
    ("a size with 0x", chunked(b"0x5\r\nabcde\r\n0\r\n\r\n"), [400]),
    ("a size with a sign", chunked(b"+5\r\nabcde\r\n0\r\n\r\n"), [400]),
    ("a size behind a blank", chunked(b" 5\r\nabcde\r\n0\r\n\r\n"), [400]),
    ("no size", chunked(b"\r\nabcde\r\n0\r\n\r\n"), [400]),
    ("a size that ends in LF", chunked(b"5\nabcde\r\n0\r\n\r\n"), [400]),
    ("a size that ends in CR", chunked(b"5\rabcde\r\n0\r\n\r\n"), [400]),
    ("an extension with LF", chunked(b"5;a\nabcde\r\n0\r\n\r\n"), [400]),
    ("an extension with NUL", chunked(b"5;\0\r\nabcde\r\n0\r\n\r\n"), [400]),
    ("a chunk that is longer than its size", chunked(b"3\r\nabcde\r\n0\r\n\r\n"), [400]),
    ("a chunk that ends in LF", chunked(b"3\r\nabc\n0\r\n\r\n"), [400]),
    ("a trailer with LF", chunked(b"0\r\nX: a\n\r\n"), [400]),
    ("an end with LF", chunked(b"0\r\n\n"), [400]),
]

SMUGGLED = [
    ("a length and chunks", post(b"Content-Length: 6\r\nTransfer-Encoding: chunked", b"0\r\n\r\nG"), [400]),
    ("chunks and a length", post(b"Transfer-Encoding: chunked\r\nContent-Length: 4", b"5c\r\nGPOST"), [400]),
    ("chunks in HTTP/1.0", b"POST /x HTTP/1.0\r\nTransfer-Encoding: chunked\r\n\r\n0\r\n\r\n", [400]),
    ("chunks twice", post(b"Transfer-Encoding: chunked\r\nTransfer-Encoding: chunked", b"0\r\n\r\n"), [501]),
    ("chunks and another coding", post(b"Transfer-Encoding: chunked\r\nTransfer-encoding: cow", b"0\r\n\r\n"), [501]),
    ("a list of codings", post(b"Transfer-Encoding: gzip, chunked", b"0\r\n\r\n"), [501]),
    ("chunks behind a comma", post(b"Transfer-Encoding: ,chunked", b"0\r\n\r\n"), [501]),
    ("identity", post(b"Transfer-Encoding: identity\r\nContent-Length: 1", b"a"), [501]),
    ("a coding that ends like chunks", post(b"Transfer-Encoding: xchunked", b"0\r\n\r\n"), [501]),
    ("chunks in quotes", post(b'Transfer-Encoding: "chunked"', b"0\r\n\r\n"), [501]),
    ("chunks with a parameter", post(b"Transfer-Encoding: chunked;a=b", b"0\r\n\r\n"), [501]),
    ("no coding in the field", post(b"Transfer-Encoding:\r\nContent-Length: 1", b"a"), [501]),
    ("a blank before the colon of the coding", post(b"Transfer-Encoding : chunked", b"0\r\n\r\n"), [400]),
    ("a folded coding", post(b"Transfer-Encoding:\r\n chunked", b"0\r\n\r\n"), [400]),
    ("a coding behind a folded field", post(b"X: a\r\n Transfer-Encoding: chunked", b"0\r\n\r\n"), [400]),
    ("a coding behind LF", post(b"X: a\nTransfer-Encoding: chunked", b"0\r\n\r\n"), [200, 200]),
    ("a coding behind LF, and a length", post(b"Content-Length: 5\nTransfer-Encoding: chunked", b"0\r\n\r\n"), [400]),
    ("a coding behind CR", post(b"X: a\rTransfer-Encoding: chunked", b"0\r\n\r\n"), [400]),
    ("a coding with a vertical tab", post(b"Transfer-Encoding: \x0bchunked", b"0\r\n\r\n"), [400]),
    ("a coding with NUL", post(b"Transfer-Encoding: chunked\0", b"0\r\n\r\n"), [400]),
    ("a coding with a byte past ASCII", post(b"Transfer-Encoding: chunked\xa0", b"0\r\n\r\n"), [501]),
    ("a name with a byte past ASCII", post(b"Transfer\xadEncoding: chunked", b"0\r\n\r\n"), [400]),
    ("a name with a dash of another kind", post(b"Transfer_Encoding: chunked"), [200, 200]),
    ("a request in a body", post(b"Content-Length: " + str(len(PROBE)).encode(), PROBE), [200, 200]),
    ("a request in a chunk", chunked(b"%x\r\n%s\r\n0\r\n\r\n" % (len(PROBE), PROBE)), [200, 200]),
    ("a request in a trailer", chunked(b"0\r\nGET /y HTTP/1.1\r\nHost: l\r\n\r\n"), [200, 200]),
    ("a request behind a refused one", post(b"Content-Length: x") + PROBE, [400]),
    ("a request in a body without a length", post(b"X: a") + PROBE, [200, 200, 200]),
]

TARGETS = [
    ("two dots", get(target=b"/a/../b"), [400]),
    ("escaped dots", get(target=b"/a/%2e%2E/b"), [400]),
    ("one dot", get(target=b"/a/./b"), [400]),
    ("three dots", get(target=b"/a/.../b"), [200, 200]),
    ("an escaped slash", get(target=b"/a%2fb"), [400]),
    ("a backslash", get(target=b"/a\\b"), [400]),
    ("an escaped backslash", get(target=b"/a%5cb"), [400]),
    ("an escaped NUL", get(target=b"/a%00b"), [400]),
    ("dots that are escaped twice", get(target=b"/%252e%252e/b"), [200, 200]),
    ("an escape that is none", get(target=b"/%zz/%4/%"), [200, 200]),
    ("dots in the query", get(target=b"/a?/../%2e%2e/\\%00"), [200, 200]),
    ("slashes", get(target=b"//a///b//"), [200, 200]),
    ("an absolute form with dots", get(target=b"http://h/.."), [400]),
    ("an absolute form with a query alone", get(target=b"http://h?a=b/.."), [200, 200]),
    ("another scheme", get(target=b"https://h/x"), [400]),
    ("UTF-8", get(target=b"/\xc3\xa4"), [200, 200]),
    ("no UTF-8", get(target=b"/\xff"), [400]),
    ("UTF-8 that is too long", get(target=b"/\xc0\xae\xc0\xae/"), [400]),
    ("an escaped line end", get(target=b"/a%0d%0aX:%20b"), [200, 200]),
]

LIMITS = [
    ("a head of 16,384 bytes", get(b"X: " + b"a" * (16_384 - len(get(b"X: \r\n"))) + b"\r\n"), [200, 200]),
    ("a head of a byte more", get(b"X: " + b"a" * (16_385 - len(get(b"X: \r\n"))) + b"\r\n"), [431]),
    ("100 fields", get(b"X: a\r\n" * 99), [200, 200]),
    ("101 fields", get(b"X: a\r\n" * 100), [431]),
    ("16,384 bytes of no line", b"A" * 16_384, [431]),
    ("16,384 empty lines", b"\n" * 16_384, [431]),
    ("a chunk line of 1,024 bytes", chunked(b"1;" + b"a" * 1_020 + b"\r\nb\r\n0\r\n\r\n"), [200, 200]),
    ("a chunk line of a byte more", chunked(b"1;" + b"a" * 1_021 + b"\r\nb\r\n0\r\n\r\n"), [400]),
    ("a trailer of 16,384 bytes", chunked(b"0\r\n" + b"a" * 16_380 + b"\r\n\r\n"), [200, 200]),
    ("a trailer of a byte more", chunked(b"0\r\n" + b"a" * 16_381 + b"\r\n\r\n"), [431]),
    ("what is no request, and a line end", b"\x01\n", [400]),
]

KNOWN = [*EXAMPLES, *BODIES, *SMUGGLED, *TARGETS, *LIMITS]
