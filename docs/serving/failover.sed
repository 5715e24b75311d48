# Makes of nginx.conf the front end of one of two machines (SCALING.md); OTHER stands for the other one's address.
# The machine that doesn't serve refuses the connection, and the message goes to the other one. The other one may be
# silent, so it is left out for five seconds then. Longer would be too long: while they change places both refuse.
/^upstream registry {/,/^}/c\
upstream registry {\
    # the processes of nginx share what they know of the two\
    zone registries 64k;\
    server 127.0.0.1:8080 max_fails=0;\
    server OTHER:8080 fail_timeout=5s;\
}
# questions go where commands go, over a connection each
/GET registry_questions;/d
s/proxy_connect_timeout 10s;/proxy_connect_timeout 2s;/
# where no connection is made the other one is tried; a command that was sent goes to no second machine
s/proxy_next_upstream error;/proxy_next_upstream error timeout;\
        proxy_socket_keepalive on;/
