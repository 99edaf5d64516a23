# What tests/timing.py --fixtures has to name. The comment before a function says what is found in it, in the words of the lists;
# several things stand in the order of their letters.
.text

# ---- at each level

# nothing
"st_aes::a_place_that_lay_in_the_frame":
    mov %rdi,-0x8(%rsp)
    mov -0x8(%rsp),%rax
    add $0x10,%rax
    mov (%rax),%ecx
    ret

# jump test $0x1,r, je
"st_aes::a_branch":
    test $0x1,%dil
    je 1f
    inc %rax
1:  ret

# read movzbl (r,r,1),r
"st_aes::a_table":
    movzbl (%rdi,%rsi,1),%eax
    ret

# read movzbl (r),r
"st_aes::a_copied_place":
    add %rsi,%rdi
    mov %rdi,%rcx
    mov %rcx,%rdx
    movzbl (%rdx),%eax
    ret

# read movzbl (r),r
"st_aes::a_place_kept_in_the_frame":
    add %rsi,%rdi
    mov %rdi,-0x18(%rsp)
    xor %edi,%edi
    mov -0x18(%rsp),%rax
    movzbl (%rax),%eax
    ret

# read movzbl (r),r
"st_aes::a_place_kept_beside_rbp":
    push %rbp
    mov %rsp,%rbp
    sub $0x20,%rsp
    imul %rsi,%rdi
    mov %rdi,-0x10(%rbp)
    mov -0x10(%rbp),%rcx
    movzbl (%rcx),%eax
    leave
    ret

# read movzbl (r),r
"st_aes::rbp_as_any_other":
    add %rsi,%rbp
    movzbl (%rbp),%eax
    ret

# read movzbl (r),r
"st_aes::a_part_of_a_register":
    add %rsi,%rdi
    mov $0x0,%dil
    movzbl (%rdi),%eax
    ret

# jump test $0x1,r, je; read movzbl (r),r
"st_aes::on_one_way_alone":
    test $0x1,%dl
    je 1f
    add %rsi,%rdi
1:  movzbl (%rdi),%eax
    ret

# jump dec r, jne; read movzbl (r),r
"st_aes::in_the_next_round":
1:  movzbl (%rdi),%eax
    add %rax,%rdi
    dec %ecx
    jne 1b
    ret

# call of a computed place *r; read movzbl (r),r
"st_aes::what_a_call_gave":
    sub $0x8,%rsp
    call *%rdi
    movzbl (%rax),%eax
    add $0x8,%rsp
    ret

# division div r
"sha2::a_division":
    xor %edx,%edx
    mov %rdi,%rax
    div %rsi
    ret

# call bcmp@plt
"st_keys::a_comparison":
    sub $0x8,%rsp
    call bcmp@PLT
    add $0x8,%rsp
    ret

# call bcmp@plt
"st_keys::a_comparison_at_the_end":
    jmp bcmp@PLT

# call memcmp
"st_keys::a_comparison_by_its_place":
    sub $0x8,%rsp
    call *memcmp@GOTPCREL(%rip)
    add $0x8,%rsp
    ret

# repeated cmpsb
"st_keys::a_repeated_comparison":
    repz cmpsb
    ret

# nothing
"st_keys::a_call":
    sub $0x8,%rsp
    call "core::called"
    add $0x8,%rsp
    ret

# jump cmp r,r, jb
"core::called":
    cmp %rdi,%rsi
    jb 1f
    inc %rax
1:  ret

# ---- x86-64-v2

# jump ptest v,v, jne
"st_aes::v2::a_branch_by_a_vector":
    ptest %xmm0,%xmm0
    jne 1f
    inc %rax
1:  ret

# read movzbl (r),r
"st_aes::v2::a_place_out_of_a_vector":
    movq %xmm0,%rax
    movzbl (%rax),%eax
    ret

# read movzbl (r),r
"st_aes::v2::a_vector_over_the_frame":
    mov %rdi,-0x10(%rsp)
    movups %xmm0,-0x18(%rsp)
    mov -0x10(%rsp),%rax
    movzbl (%rax),%eax
    ret

# division divps v,v
"st_aes::v2::a_division":
    divps %xmm1,%xmm0
    ret

# ---- x86-64-v3

# jump vptest v,v, jne
"st_aes::v3::a_branch_by_a_vector":
    vptest %ymm0,%ymm0
    jne 1f
    inc %rax
1:  ret

# read movzbl (r),r
"st_aes::v3::a_place_out_of_a_vector":
    vpextrq $0x1,%xmm0,%rax
    movzbl (%rax),%eax
    ret

# read movzbl (r),r
"st_aes::v3::a_vector_over_the_frame":
    mov %rdi,-0x10(%rsp)
    vmovups %ymm0,-0x28(%rsp)
    mov -0x10(%rsp),%rax
    movzbl (%rax),%eax
    ret

# read movzbl (r),r
"st_aes::v3::a_place_by_three_operands":
    shlx %rsi,%rdi,%rax
    movzbl (%rax),%eax
    ret

# division vdivps v,v,v
"st_aes::v3::a_division":
    vdivps %ymm2,%ymm1,%ymm0
    ret
