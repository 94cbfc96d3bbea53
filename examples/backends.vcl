# Varnish between a gateway and a backend that ends its replies with the connection, or answers in chunks to a gateway
# without --chunked: it keeps a reply until it is whole, and states its length. A plan names varnish's address, and
# varnish the backend's.
# varnishd -F -n /tmp/connect_gateway_varnish -a 127.0.0.1:9011 -f examples/backends.vcl (by its whole path)
vcl 4.1;

backend chunked {
    .host = "127.0.0.1";
    .port = "9001";
    .connect_timeout = 1s;
    # above the timeouts of the plans
    .first_byte_timeout = 30s;
}

sub vcl_recv {
    # no answer is kept for another call
    return (pass);
}

sub vcl_backend_response {
    set beresp.do_stream = false;
    set beresp.uncacheable = true;
    return (deliver);
}
