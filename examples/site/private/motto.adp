<%
    # A form that posts to its own page: a POST publishes the procedure `motto` anew, for the requests from then on.
    set problem ""
    if {[ns_conn method] eq "POST"} {
        set text [string trim [ns_queryget motto]]
        if {$text eq "" || [string length $text] > 200} {
            set problem "Please give a motto of up to 200 bytes."
        } elseif {[catch {ns_eval [list proc motto {} [list return $text]]} why]} {
            set problem $why
        } else {
            ns_returnredirect /index.adp
            ns_adp_abort
        }
    }
    ns_adp_include parts/head.html "Another motto"
    if {$problem ne ""} {ns_adp_append "<p role=\"alert\">" [html $problem] "</p>\n"}
%><form method="post" action="/private/motto.adp">
<p><label for="motto">The motto on the first page</label><input id="motto" name="motto" maxlength="200" value="<%= [html [motto]] %>" required></p>
<p><button>Publish</button></p>
</form>
<% ns_adp_include parts/foot.html %>
