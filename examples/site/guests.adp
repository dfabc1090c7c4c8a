<% ns_adp_include parts/head.html "Guest book" %><form method="post" action="/sign">
<p><label for="name">Your name</label><input id="name" name="name" maxlength="100" autocomplete="name" required></p>
<p><label for="text">What you want to say</label><textarea id="text" name="text" rows="4" maxlength="2000" required></textarea></p>
<p><button>Sign</button></p>
</form>
<%
    array set entries [nsv_array get guests]
    if {[array size entries] == 0} {ns_adp_append "<p>Nobody has signed yet.</p>\n"}
    foreach id [lsort -integer -decreasing [array names entries]] {
        foreach {moment name text} $entries($id) {
            ns_adp_append "<article>\n<h2>" [html $name] "</h2>\n"
            ns_adp_append "<p class=\"words\">" [html $text] "</p>\n"
            ns_adp_append "<p><small>" [ns_httptime $moment] "</small></p>\n</article>\n"
        }
    }
    ns_adp_include parts/foot.html
%>
