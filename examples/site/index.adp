<% ns_adp_include parts/head.html "The tea shop" %><p><%= [html [motto]] %>.</p>
<form method="get" action="/price">
<p><label for="grams">How many grams of tea?</label><input id="grams" name="grams" inputmode="numeric" required></p>
<p><button>What does it cost?</button></p>
</form>
<p>Pages read before this one: <%= [nsv_get visits pages] %>.</p>
<% ns_adp_include parts/foot.html %>
