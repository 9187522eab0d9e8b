; A mixed workload of the Z80's own instructions, 720 times: a block copy and a search, products by shifts, a checksum
; in the alternate registers, records by IX, a sieve of bits, and quotients. What they find is summed up at SUM.
	org 0100h
	ld sp,0eb00h
	ld hl,0
	ld (sum),hl
	ld hl,720
	ld (turns),hl
again:	call blocks
	call products
	call check
	call records
	call sieve
	call quotients
	ld hl,(turns)
	dec hl
	ld (turns),hl
	ld a,h
	or l
	jr nz,again
	ld de,(sum)
	halt

; adds HL to the sum
total:	push de
	ld de,(sum)
	add hl,de
	ld (sum),hl
	pop de
	ret

; fills 2000h to 27FFh with 1, 2, 3 .., copies it to 3000h, and searches the copy for its first 0FFh
blocks:	ld hl,2000h
	ld bc,0800h
	ld a,(turns)
fill:	inc a
	ld (hl),a
	inc hl
	dec c
	jr nz,fill
	djnz fill
	ld hl,2000h
	ld de,3000h
	ld bc,0800h
	ldir
	ld hl,3000h
	ld bc,0800h
	ld a,0ffh
	cpir
	jp total

; sums the products of each byte of 2000h to 20FFh with its address's low byte, by shifts and sums
products:
	ld ix,0
	ld hl,2000h
product:
	push hl
	ld c,(hl)
	ld e,l
	ld d,0
	ld hl,0
	ld b,8
shifts:	srl c
	jr nc,even
	add hl,de
even:	sla e
	rl d
	djnz shifts
	ex de,hl
	add ix,de
	pop hl
	inc l
	jr nz,product
	push ix
	pop hl
	jp total

; a check of 3000h to 33FFh by the polynomial 1021h, kept in the alternate HL
check:	exx
	ld hl,0ffffh
	exx
	ld hl,3000h
	ld bc,0400h
bytes:	ld a,(hl)
	exx
	xor h
	ld h,a
	ld b,4
bits:	add hl,hl
	jr nc,clear
	ld a,h
	xor 10h
	ld h,a
	ld a,l
	xor 21h
	ld l,a
clear:	djnz bits
	exx
	cpi
	jp pe,bytes
	exx
	push hl
	exx
	pop hl
	jp total

; 128 records of 8 bytes from 4000h: a counter, a limit and a word that is summed up
records:
	ld ix,4000h
	ld iy,sum
	ld b,128
record:	inc (ix+0)
	ld a,(ix+0)
	cp (ix+1)
	jr c,below
	ld (ix+0),0
	inc (ix+1)
below:	ld l,(ix+2)
	ld h,(ix+3)
	ld e,a
	ld d,0
	add hl,de
	ld (ix+2),l
	ld (ix+3),h
	bit 0,l
	jr z,whole
	set 7,(ix+4)
whole:	ld de,8
	add ix,de
	djnz record
	ld a,l
	add a,(iy+0)
	ld (iy+0),a
	ret

; the primes below 4096 by a sieve of bits from 5000h, a bit for each odd number: counts them
sieve:	ld hl,5000h
	ld de,5001h
	ld (hl),0
	ld bc,00ffh
	ldir
	ld de,1
	ld bc,0
odd:	call test
	jr nz,struck
	inc bc
	ld hl,32
	or a
	sbc hl,de
	jr c,struck
	push de
	ld h,d
	ld l,e
	add hl,hl
	inc hl
	push bc
	ld b,h
	ld c,l
	add hl,de
strike:	ex de,hl
	call mark
	ex de,hl
	add hl,bc
	ld a,h
	cp 8
	jr c,strike
	pop bc
	pop de
struck:	inc de
	bit 3,d
	jr z,odd
	ld h,b
	ld l,c
	jp total

; the byte of the bit DE at HL, and the bit's number in A
place:	ld h,d
	ld l,e
	srl h
	rr l
	srl h
	rr l
	srl h
	rr l
	set 6,h
	set 4,h
	ld a,e
	and 7
	ret

; Z where the bit DE is clear
test:	call place
	push bc
	ld b,a
	ld a,(hl)
	inc b
	jr first
more:	rrca
first:	djnz more
	pop bc
	bit 0,a
	ret

; sets the bit DE
mark:	call place
	push bc
	ld b,a
	ld a,1
	inc b
	jr start
left:	rlca
start:	djnz left
	or (hl)
	ld (hl),a
	pop bc
	ret

; 256 quotients of words by the word at SUM, each by 16 steps that subtract and restore
quotients:
	ld de,(sum)
	set 0,e
	res 7,d
	ld b,0
quotient:
	push bc
	ld a,b
	ld c,0a5h
	ld hl,0
	ld b,16
digit:	sla c
	rla
	adc hl,hl
	sbc hl,de
	jr nc,fits
	add hl,de
	djnz digit
	jr done
fits:	inc c
	djnz digit
done:	ld h,a
	ld l,c
	ex af,af'
	call total
	ex af,af'
	pop bc
	djnz quotient
	ret

sum:	defw 0
turns:	defw 0
