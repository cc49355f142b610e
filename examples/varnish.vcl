# Varnish as a cache in front of `quaestor serve 127.0.0.1:8080 --workers 64`; docs/OPERATING.md says what each
# part is for. It listens at 127.0.0.1:8082:
#
#     varnishd -F -a 127.0.0.1:8082 -f "$PWD/examples/varnish.vcl" -s malloc,256m
vcl 4.1;

backend quaestor {
    .host = "127.0.0.1";
    .port = "8080";
    .max_connections = 48;
}

acl purgers {
    "127.0.0.1";
}

sub vcl_recv {
    if (req.method == "PURGE") {
        if (client.ip !~ purgers) {
            return (synth(405));
        }
        return (purge);
    }
    # The server matches by itself (--matchers), so nobody else need ask for it.
    if (req.url == "/v1/match") {
        return (synth(404));
    }
    # A browser asks so whether a page of another origin may send a request.
    if (req.method == "OPTIONS") {
        return (synth(204));
    }
    # A client that wants an answer of the server itself asks so; browsers do by `max-age=0`.
    if (req.http.Cache-Control ~ "(?i)no-cache|max-age=0\b") {
        set req.hash_always_miss = true;
    }
}

# A copy is found by its target alone, so that a purge finds it whatever Host a client names.
sub vcl_hash {
    hash_data(req.url);
    return (lookup);
}

sub vcl_backend_response {
    # No copy is given after its lifetime; for an hour it is kept to be revalidated.
    set beresp.grace = 0s;
    set beresp.keep = 1h;
}

# Pages of this other origin may use the server from a browser, and read these fields of its replies.
sub tell_pages {
    set resp.http.Access-Control-Allow-Origin = "https://shop.example";
    set resp.http.Access-Control-Expose-Headers = "ETag, Date, Age, X-Cache, Quaestor-Commit, Quaestor-Until, Quaestor-Version";
    set resp.http.Timing-Allow-Origin = resp.http.Access-Control-Allow-Origin;
}

sub vcl_synth {
    call tell_pages;
    if (resp.status == 204) {
        set resp.http.Access-Control-Allow-Methods = "GET, PUT, DELETE";
        set resp.http.Access-Control-Allow-Headers = "Content-Type, If-Match, If-None-Match";
        set resp.http.Access-Control-Max-Age = "600";
        return (deliver);
    }
}

sub vcl_deliver {
    call tell_pages;
    if (obj.hits > 0) {
        set resp.http.X-Cache = "HIT";
    } else {
        set resp.http.X-Cache = "MISS";
    }
}
