# What tests/shifts.py is to name, and what it is to pass over. tests/shifts.expected has its answer.
        .text
varies:
        shl     %cl, %eax
        shrq    %cl, (%rdi)
        sar     %cl, %eax
        rol     %cl, %eax
        rcr     %cl, %eax
        shld    %cl, %eax, %edx
        shlx    %ecx, %eax, %edx
        shrx    %rcx, (%rdi), %rdx
        sarx    %ecx, %eax, %edx
        bt      %ecx, %eax
        btsq    %rcx, (%rdi)
        btr     %ecx, %eax
        btc     %ecx, %eax
        bzhi    %ecx, %eax, %edx
        bextr   %ecx, %eax, %edx
        pext    %rcx, %rax, %rdx
        pdep    %rcx, %rax, %rdx
        psllq   %xmm1, %xmm0
        psrad   (%rdi), %xmm0
        vpsrlw  %xmm1, %xmm2, %xmm3
        vpsllvd %ymm1, %ymm2, %ymm3
        vprolvq %zmm1, %zmm2, %zmm3
        cs btl  %ecx, (%rdi)
        ret
fixed:
        shl     %eax
        shr     $5, %rax
        sarl    $31, (%rdi)
        ror     $8, %ax
        shrd    $7, %rax, %rdx
        rorx    $3, %eax, %edx
        bt      $5, %eax
        btr     $63, %rax
        psllw   $15, %xmm1
        psrldq  $8, %xmm1
        vpslld  $3, %ymm1, %ymm2
        bswap   %eax
        imul    %rcx, %rax
        mul     %rcx
        and     %ecx, %eax
        mov     (%rdi,%rcx,4), %eax
        ret
allowed:
        shl     %cl, %eax
        ret
bent:
        test    %ecx, %ecx
1:      add     %eax, %eax
        dec     %ecx
        jne     1b
        jmp     *%rax
        call    *%rax
        call    memcpy
        call    __ashlti3
        div     %ecx
        je      2f
2:      ret
        .section .note.GNU-stack, "", @progbits
