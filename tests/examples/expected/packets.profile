steps  share   behind
42     38.9 %  parser.parse
16     14.8 %  net.next
8      7.4 %   logger.put
5      4.6 %   digits.digit
5      4.6 %   net.rest
4      3.7 %   digits.below
4      3.7 %   <return>
3      2.8 %   net.main
3      2.8 %   <switch>
3      2.8 %   parser.done
2      1.9 %   net.end
1      0.9 %   <allocate>
1      0.9 %   <free>
1      0.9 %   <sleep>
10     9.3 %   no thread is ready
       > end finished steps 108 ticks 5 calls 3 devices 7 allocations 1 frees 1 traps 0
