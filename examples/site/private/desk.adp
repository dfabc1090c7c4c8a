<% ns_adp_include parts/head.html "For the keeper" %><p>Pages read: <%= [nsv_get visits pages] %>. Guests: <%= [nsv_array size guests] %>. Blueprint: <%= [ns_ictl epoch] %>.</p>
<%
    foreach {key fault} [nsv_array get faults] {set faults([lindex $fault 0]) [lrange $fault 1 end]}
    if {[array size faults] == 0} {ns_adp_append "<p>Nothing has failed.</p>\n"}
    foreach number [lsort -integer -decreasing [array names faults]] {
        foreach {moment request what text} $faults($number) {
            ns_adp_append "<p>" [ns_httptime $moment] ", " [html $request] ", in <code>" [html $what] "</code>:</p>\n"
            ns_adp_append "<p class=\"words\">" [html $text] "</p>\n"
        }
    }
%><form method="post" action="/private/reset"><p><button>Set the counter back</button></p></form>
<p><a href="/private/motto.adp">Another motto</a> <a href="/private/server.adp">What the server holds</a></p>
<% ns_adp_include parts/foot.html %>
