" Names each line of a description that isn't highlighted as TOML, and each word of a script that isn't highlighted as what
" it is, and ends Vim.
function Group(line, column)
  return synIDattr(synID(a:line, a:column, 1), 'name')
endfunction

let s:wrong = []
let s:begins = search('^---$', 'nw')
if Group(s:begins, 1) !=# 'regrunSeparator'
  call add(s:wrong, 'separator: ' . Group(s:begins, 1))
endif
for s:number in range(1, s:begins - 1)
  let s:first = match(getline(s:number), '\S')
  if s:first >= 0 && index(map(synstack(s:number, s:first + 1), 'synIDattr(v:val, "name")'), 'regrunToml') != 0
    call add(s:wrong, s:number . ' is no line of TOML')
  endif
endfor
for s:number in range(s:begins + 1, line('$'))
  let s:text = getline(s:number)
  let s:first = match(s:text, '\S')
  if s:first < 0
    continue
  endif
  let s:want = s:text[s:first] ==# '#' ? 'regrunComment' : s:text =~# '^\s*seq\>' ? 'regrunSequence' : 'regrunCommand'
  let s:map = match(s:text, '\s@\h') + 2
  for [s:column, s:group] in [[s:first + 1, s:want]] + (s:map > 1 && s:want !=# 'regrunComment' ? [[s:map, 'regrunMap']] : [])
    if Group(s:number, s:column) !=# s:group
      call add(s:wrong, s:number . ':' . s:column . ' is ' . Group(s:number, s:column) . ', not ' . s:group)
    endif
  endfor
endfor
call writefile(s:wrong, '/dev/stdout')
qall!
