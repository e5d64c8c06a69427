procedure Main is
type Row is record
C00 : Integer := 0; C01 : Integer := 0; C02 : Integer := 0; C03 : Integer := 0; C04 : Integer := 0; C05 : Integer := 0; C06 : Integer := 0; C07 : Integer := 0;
C10 : Integer := 0; C11 : Integer := 0; C12 : Integer := 0; C13 : Integer := 0; C14 : Integer := 0; C15 : Integer := 0; C16 : Integer := 0; C17 : Integer := 0;
C20 : Integer := 0; C21 : Integer := 0; C22 : Integer := 0; C23 : Integer := 0; C24 : Integer := 0; C25 : Integer := 0; C26 : Integer := 0; C27 : Integer := 0;
C30 : Integer := 0; C31 : Integer := 0; C32 : Integer := 0; C33 : Integer := 0; C34 : Integer := 0; C35 : Integer := 0; C36 : Integer := 0; C37 : Integer := 0;
C40 : Integer := 0; C41 : Integer := 0; C42 : Integer := 0; C43 : Integer := 0; C44 : Integer := 0; C45 : Integer := 0; C46 : Integer := 0; C47 : Integer := 0;
C50 : Integer := 0; C51 : Integer := 0; C52 : Integer := 0; C53 : Integer := 0; C54 : Integer := 0; C55 : Integer := 0; C56 : Integer := 0; C57 : Integer := 0;
C60 : Integer := 0; C61 : Integer := 0; C62 : Integer := 0; C63 : Integer := 0; C64 : Integer := 0; C65 : Integer := 0; C66 : Integer := 0; C67 : Integer := 0;
C70 : Integer := 0; C71 : Integer := 0; C72 : Integer := 0; C73 : Integer := 0; C74 : Integer := 0; C75 : Integer := 0; C76 : Integer := 0; C77 : Integer := 0;
end record;
type Table is record
R00 : Row; R01 : Row; R02 : Row; R03 : Row; R04 : Row; R05 : Row; R06 : Row; R07 : Row;
R10 : Row; R11 : Row; R12 : Row; R13 : Row; R14 : Row; R15 : Row; R16 : Row; R17 : Row;
R20 : Row; R21 : Row; R22 : Row; R23 : Row; R24 : Row; R25 : Row; R26 : Row; R27 : Row;
R30 : Row; R31 : Row; R32 : Row; R33 : Row; R34 : Row; R35 : Row; R36 : Row; R37 : Row;
R40 : Row; R41 : Row; R42 : Row; R43 : Row; R44 : Row; R45 : Row; R46 : Row; R47 : Row;
R50 : Row; R51 : Row; R52 : Row; R53 : Row; R54 : Row; R55 : Row; R56 : Row; R57 : Row;
R60 : Row; R61 : Row; R62 : Row; R63 : Row; R64 : Row; R65 : Row; R66 : Row; R67 : Row;
R70 : Row; R71 : Row; R72 : Row; R73 : Row; R74 : Row; R75 : Row; R76 : Row;
Last : Integer := 0; Too_Many : Boolean := True;
end record; type Link is access Table;
A : Link := new Table;
begin A.R76.C77 := 1; end Main;
