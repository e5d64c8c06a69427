with Ada.Finalization; with Ada.Text_IO; with Ada.Unchecked_Deallocation;
procedure Main is
begin
   declare
      type Cell is record Value : Integer := 4; end record;
      type Link is access Cell;
      type Pair is record First : Link; Second : Link; end record;
      type Count is new Ada.Finalization.Controlled with record Value : Integer := 0; end record;
      overriding procedure Initialize (Object : in out Count);
      procedure Free is new Ada.Unchecked_Deallocation (Cell, Link);
      overriding procedure Initialize (Object : in out Count) is
         P : Pair;
      begin
         P.First := new Cell;
         P.Second := new Cell'(Value => 5);
         Object.Value := P.First.Value + P.Second.Value;
         Free (P.First);
         Free (P.Second);
      end Initialize;
      One : Count;
   begin
      Ada.Text_IO.Put_Line (Integer'Image (One.Value));
   end;
end Main;
