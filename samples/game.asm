; A game's frame loop as a cartridge at $5000 has it: start, frame loop, and five routines. It shows what the meter is for: the
; eight stores in a row at the end of `draw` take 72 cycles in which no bus request is heard, and the picture tears.
;
; Each line is one that the kit's assembler takes; what follows a semicolon is a remark. README.md says how the image is made.

; the stack, a cleared screen, and the interrupt on
; $5000 start
DIS
MVII #$02F1,R6
JSR R5,$502A        ; clear
MVII #$0003,R0
MVO R0,$0150        ; lives
XORR R0,R0
MVO R0,$0151        ; score
MVO R0,$0152        ; frame mark, which the interrupt sets
EIS

; once a frame, everything in its turn
; $5010 main
MVI $0152,R0
CMPI #$0000,R0
BEQ -$0005          ; main
XORR R0,R0
MVO R0,$0152
JSR R5,$5034        ; controls
JSR R5,$5052        ; move
JSR R5,$5063        ; hit
JSR R5,$5079        ; scale
JSR R5,$508B        ; draw
B -$0019            ; main

; 240 words of the screen from $0200 on
; $502A clear
XORR R0,R0
MVII #$00F0,R1
MVII #$0200,R4
; $502F clear1
MVO@ R0,R4
DECR R1
BNEQ -$0003         ; clear1
MOVR R5,R7

; the left hand controller, turned into a speed for the first object
; $5034 controls
MVI $01FE,R0
XORI #$00FF,R0
MVO R0,$0153
ANDI #$0002,R0
BEQ +$0005          ; controls1
MVII #$0001,R1
MVO R1,$0170
MOVR R5,R7
; $5043 controls1
MVI $0153,R0
ANDI #$0008,R0
BEQ +$0005          ; controls2
MVII #$FFFF,R1
MVO R1,$0170
MOVR R5,R7
; $504E controls2
XORR R1,R1
MVO R1,$0170
MOVR R5,R7

; eight objects, each by its speed: positions from $0160 on, speeds from $0170 on
; $5052 move
MVO@ R5,R6
MVII #$0160,R4
MVII #$0170,R5
MVII #$0008,R2
; $5059 move1
MVI@ R4,R0
ADD@ R5,R0
ANDI #$00FF,R0
DECR R4
MVO@ R0,R4
DECR R2
BNEQ -$0008         ; move1
MVI@ R6,R7

; does an object stand where the first one does? Then a life is gone
; $5063 hit
MVI $0160,R0
MVII #$0161,R4
MVII #$0007,R2
; $5069 hit1
CMP@ R4,R0
BEQ +$0004          ; hit2
DECR R2
BNEQ -$0005         ; hit1
MOVR R5,R7
; $5070 hit2
MVI $0150,R1
DECR R1
MVO R1,$0150
BNEQ +$0001         ; hit3
HLT                 ; the game is over
; $5078 hit3
MOVR R5,R7

; a score of two decimal digits from a table address in two halves, and its place on the screen: the shifts are not heard, but
; there are few in a row
; $5079 scale
SDBD
MVII #$5A00,R4
MVI $0151,R0
SWAP R0
SLR R0,2
SLR R0,2
ADDR R0,R4
MVI $0151,R1
SLL R1,2
SLL R1,2
ADDR R1,R1
MVO R1,$0154
MOVR R5,R7

; the eight objects' positions go to the picture's registers. Each is made ready in turn, where requests are heard; the last eight
; stores go in a row
; $508B draw
MVO@ R5,R6
MVII #$0160,R4
MVII #$0000,R5
MVII #$0008,R2
; $5092 draw1
MVI@ R4,R0
XORI #$0200,R0
MVO@ R0,R5
DECR R2
BNEQ -$0006         ; draw1
MVII #$0008,R5
MVII #$0200,R0
MVO@ R0,R5          ; from here to the last store no request is heard
MVO@ R0,R5
MVO@ R0,R5
MVO@ R0,R5
MVO@ R0,R5
MVO@ R0,R5
MVO@ R0,R5
MVO@ R0,R5
MVI@ R6,R7
