<% ns_adp_include parts/head.html "What the server holds" %><p>It has run since <%= [ns_httptime [nsv_get server since]] %>, and has blueprint <%= [ns_ictl epoch] %>.</p>
<table>
<tr><th>Shared array</th><th>Keys</th></tr>
<% foreach name [nsv_names] {ns_adp_append "<tr><td>" [html $name] "</td><td>" [nsv_array size $name] "</td></tr>\n"} %></table>
<% ns_adp_include parts/foot.html %>
