<% ns_adp_include parts/head.html "Our teas" %><ul>
<% foreach tea [nsv_array names stock] {ns_adp_append "<li><a href=\"/teas.adp?tea=" [ns_urlencode $tea] "\">" [html $tea] "</a></li>\n"} %></ul>
<% if {[ns_queryget tea] ne ""} {
    ns_adp_append "<p>" [attempt [list told [ns_queryget tea]] "Nothing is known of that tea."] "</p>\n"
}
ns_adp_include parts/foot.html %>
