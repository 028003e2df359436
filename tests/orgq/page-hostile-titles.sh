cat > "a \"b\" <c> & 'd'.org" <<'END'
#+TODO: <B> A&B "Q" | DONE
* <B> [#A] </bdi></a><script>alert("x")</script> <2024-02-28 Wed 09:00> :a_b:
* A&B &lt;b&gt; is &amp; no tag
DEADLINE: <2024-02-27 Tue>
* "Q" " onmouseover="alert('x')
DEADLINE: <2024-03-01 Fri>
* <!-- no comment --> <2024-02-29 Thu>
CLOCK: [2024-02-28 Wed 08:00]--[2024-02-28 Wed 09:00]
* ]]> <![CDATA[ <2024-02-29 Thu>--<2024-03-01 Fri>
END
