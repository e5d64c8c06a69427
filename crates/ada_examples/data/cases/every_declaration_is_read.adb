with Ada.Text_IO, Ada.Unchecked_Deallocation; with Ada.Finalization; procedure P is
E : exception; N : constant := -1; S : T (Pool_Size => 64); S2 : T (N);
X : A := new T'(1, Next => null); Y : access T := X; type T; type A is access T with Storage_Pool => S;
type T is record C : Integer := 0; end record; type D is new T with null record;
for A'Storage_Size use 64; overriding procedure Q (X : in out T; Y : T);
procedure R is begin null; end R; procedure Free is new Ada.Unchecked_Deallocation (T, A);
begin null; end P;
