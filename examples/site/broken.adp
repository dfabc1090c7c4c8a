<p>An error in a page gives the plain 500, whatever was put out: <%= $nobody_set_this %></p>
