" Colours for DML as ssfnet reads it (docs/REFERENCE.md).
" Link the folder above to ~/.vim/pack/ssfnet/start/dml.
if exists('b:current_syntax')
  finish
endif

" A word ends at a blank, a bracket, a quote or a comment, so keywords stand between such.
syntax case match
syntax match dmlWord /[^][" \t\r\n#]\+/
syntax match dmlNumber /\%(^\|[][" \t]\)\@1<=\%(\d\+\.\=\d*\|\.\d\+\)\ze\%($\|[][" \t#]\)/
syntax match dmlAddress /\%(^\|[][" \t]\)\@1<=\d\+\%(:\d\+\)*\%((\d\+)\|:\d\+\)\ze\%($\|[][" \t#]\)/
syntax match dmlAddress /\%(^\|[][" \t]\)\@1<=\d\+\%(:\d\+\)\+(\d\+)\ze\%($\|[][" \t#]\)/
syntax match dmlPath /\%(^\|[][" \t]\)\@1<=\%(\.[^][" \t\r\n#.0-9][^][" \t\r\n#.]*\)\%(\.[^][" \t\r\n#.]\+\)*/
syntax match dmlList /\%(^\|[][" \t]\)\@1<=\%(Net\|ring\|hop\|host\|router\|link\|interface\|graph\|ProtocolSession\|traffic\|pattern\|servers\|nhi_route\|route\|idrange\|down\|tcpinit\|schemas\)\ze\%($\|[][" \t#]\)/
syntax match dmlKey /\%(^\|[][" \t]\)\@1<=\%(frequency\|id\|from\|to\|bitrate\|latency\|buffer\|cost\|attach\|delay\|priority\|dest\|next_hop\|name\|port\|transport\|start_time\|start_window\|file_size\|datagram_size\|send_interval\|ISS\|MSS\|RcvWndSize\|SendWndSize\|MaxRexmitTimes\|MSL\|client\|server\|nhi\|nodes\|token\)\ze\%($\|[][" \t#]\)/
syntax match dmlSubstitution /\%(^\|[][" \t]\)\@1<=_\%(find\|extends\)\ze\%($\|[][" \t#]\)/
syntax region dmlText start=/"/ end=/"/
syntax match dmlComment /#.*$/ contains=dmlTodo
syntax keyword dmlTodo contained TODO FIXME
syntax match dmlBracket /[][]/

highlight default link dmlNumber Number
highlight default link dmlAddress Constant
highlight default link dmlPath Identifier
highlight default link dmlList Structure
highlight default link dmlKey Keyword
highlight default link dmlSubstitution PreProc
highlight default link dmlText String
highlight default link dmlComment Comment
highlight default link dmlTodo Todo
highlight default link dmlBracket Delimiter

let b:current_syntax = 'dml'
