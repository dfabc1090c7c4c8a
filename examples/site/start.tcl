# The start script of this site: it is run once, when the server starts, and what it defines is published together.

# ---- texts

# A text as it stands in HTML, in an element or in a quoted attribute. Whatever a visitor sent goes through this.
proc html {text} {
    foreach {mark name} {& &amp; < &lt; > &gt; \" &quot; ' &#39;} {
        set text [join [split $text $mark] $name]
    }
    return $text
}

# The look of all pages.
proc style {} {return {
body { max-width: 40em; margin: 0 auto; padding: 0 1em 2em; font: 1rem/1.5 sans-serif; color: #222; background: #fbfaf7; }
nav { display: flex; flex-wrap: wrap; gap: 0 1.2em; padding: 0.8em 0; border-bottom: 2px solid #2f6b4f; }
a { color: #2f6b4f; }
h1 { margin: 0.8em 0 0.4em; }
label { display: block; font-weight: bold; }
input, textarea { width: 100%; box-sizing: border-box; padding: 0.4em; font: inherit; border: 1px solid #888; }
button { padding: 0.4em 1em; font: inherit; color: #fff; background: #2f6b4f; border: 0; cursor: pointer; }
article { margin: 1em 0; padding: 0 1em; background: #fff; border: 1px solid #ddd; }
article h2 { margin: 0.8em 0 0; font-size: 1.1em; }
table { border-collapse: collapse; }
th, td { padding: 0.2em 2em 0.2em 0; text-align: left; border-bottom: 1px solid #ddd; }
.words { white-space: pre-line; overflow-wrap: break-word; }
}}

# Answers with a small page of its own, for procedures. Pages use parts/head.html in its place.
proc answer {status title text} {
    ns_return $status "text/html; charset=utf-8" "<!DOCTYPE html>
<html lang=\"en\">
<head>
<meta charset=\"utf-8\">
<meta name=\"viewport\" content=\"width=device-width\">
<title>[html $title]</title>
<style>[style]</style>
</head>
<body>
<main>
<h1>[html $title]</h1>
<p>[html $text]</p>
<p><a href=\"/index.adp\">To the shop</a></p>
</main>
</body>
</html>
"
}

# ---- every request

# Fields that tell a browser to be careful. They go with every response but the plain ones that the server makes itself.
proc guard {when} {
    set fields [ns_conn outputheaders]
    ns_set put $fields X-Content-Type-Options nosniff
    ns_set put $fields Content-Security-Policy \
        "default-src 'none'; style-src 'unsafe-inline'; form-action 'self'; frame-ancestors 'none'"
    return filter_ok
}

# Refuses a form that was sent from a page of another site; a browser says in the field Origin where a form comes from.
proc refuse_foreign {when} {
    set origin [ns_set iget [ns_conn headers] Origin]
    set host [ns_set iget [ns_conn headers] Host]
    if {$origin eq "" || $origin eq "http://$host" || $origin eq "https://$host"} {return filter_ok}
    answer 403 "Refused" "This form was sent from another site."
    return filter_return
}

# Counts a page, once its response was written. All pages have one key: the path is what a visitor asked for, so a key
# for each path would be as many keys as visitors like.
proc count {when} {nsv_incr visits pages}

ns_register_filter preauth * /* guard
ns_register_filter preauth POST /* refuse_foreign
ns_register_filter trace GET /*.adp count
nsv_set visits pages 0
nsv_set server since [ns_time]

# ---- the keeper's pages

# User and password of the keeper. This is a sample: whoever reads this file can log in.
ns_ictl global keeper [list keeper "green tea"]

# Asked for every request, behind the preauth filters.
proc ns_authorize {method path user password} {
    global keeper
    if {![string match /private/* $path]} {return ok}
    if {[list $user $password] eq $keeper} {return ok}
    return unauthorized
}

# Sets the counter back.
proc reset {} {
    nsv_set visits pages 0
    ns_returnredirect /private/desk.adp
}
ns_register_proc -noinherit POST /private/reset reset

# What is published now, as a script of definitions: what examples/play takes to play a request as it is served now.
# It holds the keeper's password, so it is for the keeper alone.
proc published {} {ns_return 200 text/plain [ns_ictl get]}
ns_register_proc -noinherit GET /private/published published

# What the home page says. The keeper's page private/motto.adp publishes another one.
proc motto {} {return "Fresh every day"}

# ---- the shop

proc home {} {ns_returnredirect /index.adp}
ns_register_proc -noinherit GET / home

# Keeps the text of an error for the keeper, who sees the last 20 at /private/desk.adp. There are 20 keys, used again and
# again in turn, so this can't grow.
proc keep_fault {what text} {
    set number [nsv_incr kept faults]
    set kept [list $number [ns_time]]
    foreach part [list "[ns_conn method] [ns_conn url]" $what $text] {lappend kept [string range $part 0 999]}
    nsv_set faults [expr {$number % 20}] $kept
}

# Runs a procedure that serves a request. Where it fails, the visitor is told so kindly, and the error is kept for the
# keeper. A response that was already given stands.
proc kindly {name} {
    if {[catch {$name} text] == 1} {
        keep_fault $name $text
        catch {answer 500 "Sorry" "This didn't work, and the keeper was told so."}
    }
}

# The same for a part of a page: the text that a command gives; where it fails, the text that is to stand in its place.
proc attempt {command instead} {
    if {[catch $command text] != 1} {return $text}
    keep_fault $command $text
    return $instead
}

# The price of some tea, in cents: 3 for each gram.
proc price {} {
    set grams [ns_queryget grams]
    answer 200 "Price" "[expr {$grams * 3}] cents"
}
ns_register_proc -noinherit GET /price kindly price

# What a tea costs, for teas.adp. An error where there is no such tea.
nsv_array set stock {black 7 green 12 white 110}
proc told {tea} {return "[html $tea]: [nsv_get stock $tea] cents a gram"}

# ---- the guest book

# Signs the book. Each entry has a key of its own, so signing and cleaning up are single steps that can't undo each other.
proc sign {} {
    set name [string trim [ns_queryget name]]
    set text [string trim [ns_queryget text]]
    if {$name eq "" || $text eq "" || [string length $name] > 100 || [string length $text] > 2000} {
        answer 400 "Not signed" "Please give a name of up to 100 bytes and a text of up to 2,000."
    } elseif {[nsv_array size guests] >= 500} {
        answer 503 "Not signed" "The book is full. Please come back later."
    } else {
        nsv_set guests [nsv_incr book entries] [list [ns_time] $name $text]
        ns_returnredirect /guests.adp
    }
}
ns_register_proc -noinherit POST /sign sign

# Keeps the newest 100 entries, and of these the ones of the last 30 days.
proc clean_up {} {
    set place 0
    array set entries [nsv_array get guests]
    foreach id [lsort -integer -decreasing [array names entries]] {
        if {[incr place] > 100 || [lindex $entries($id) 0] < [ns_time] - 30 * 86400} {catch {nsv_unset guests $id}}
    }
}
ns_schedule_proc 3600 clean_up

# The book as a text, for the keeper to save. Saved below the root as data/guests, it is read back at the next start.
proc saved {} {ns_return 200 text/plain [list [nsv_array get guests] [nsv_get book entries]]}
ns_register_proc -noinherit GET /private/saved saved

nsv_set book entries 0
if {![catch {open /data/guests} channel]} {
    foreach {guests entries} [read $channel] {
        nsv_array reset guests $guests
        nsv_set book entries $entries
    }
    close $channel
}
