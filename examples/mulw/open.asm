A        MULW  R1
         RET
