# What commands of AOLserver 4 do, as far as the pages under "there" in docs/FROM_AOLSERVER.md call them. Read by tclsh
# in front of such a page and of one request, by checks/differences. Written after AOLserver's manual pages.

set moment 0
set status 0
set fields {}
set body ""
set page ""
array set pages {}

rename clock system_clock
proc clock {what args} {
    if {$what eq "seconds"} {return $::moment}
    uplevel 1 [list system_clock $what {*}$args]
}
proc ns_time {} {return $::moment}
proc ns_log {severity args} {}
proc ns_quotehtml text {string map {& &amp; < &lt; > &gt; \" &#34; ' &#39;} $text}

# The request: pairs of its form and of its fields.
proc ns_conn what {
    switch $what {
        form - headers {return $what}
        url {return $::url}
    }
    error "no ns_conn $what"
}
proc ns_getform {} {return form}
proc ns_set {verb set key} {
    foreach {name value} $::sets($set) {
        if {$name eq $key || ($verb eq "iget" && [string equal -nocase $name $key])} {return $value}
    }
    return ""
}
proc ns_queryget key {ns_set iget form $key}

# The response: what was written, or what was given at once.
proc ns_headers {status type} {set ::status $status}
proc ns_write text {append ::body $text}
proc ns_puts text {append ::page $text}
proc ns_return {status type text} {
    set ::status $status
    set ::body $text
}
proc ns_returnredirect url {
    set ::status 302
    lappend ::fields "Location: $url"
}
proc ns_adp_abort {} {error ADP_ABORT}

proc nsv_array {verb array args} {
    switch $verb {
        set {array set ::nsv_$array [lindex $args 0]}
        names {return [array names ::nsv_$array]}
    }
}
proc nsv_get {array key} {set ::nsv_${array}($key)}

proc ns_register_proc {method url name} {set ::served($method,$url) $name}

# Puts a page out: its texts, and what its blocks put out.
proc run_page text {
    while {[regexp {^(.*?)<%(=?)(.*?)%>(.*)$} $text all front words script text]} {
        append ::page $front
        if {$words ne ""} {set script "ns_puts $script"}
        uplevel #0 $script
    }
    append ::page $text
}

# Serves the request by the procedure that is registered for it, or by the page of its path.
proc serve {method path} {
    if {[info exists ::served($method,$path)]} {
        $::served($method,$path) conn context
    } elseif {[string match *.adp $path]} {
        if {[catch {run_page $::pages($path)} text] && $text ne "ADP_ABORT"} {error $text}
        if {$::status == 0} {ns_return 200 text/html $::page}
    } else {
        eval $::pages($path)
    }
}
