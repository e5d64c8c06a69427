with Ada.Text_IO;
with Ada.Unchecked_Deallocation;

procedure Main is
   procedure Sum (Last : Integer) is
      type Cell;
      type Chain is access Cell;
      type Cell is record
         Value : Integer := 0;
         Next  : Chain;
      end record;
      procedure Free is new Ada.Unchecked_Deallocation (Cell, Chain);
      Top   : Chain;
      Total : Integer := 0;
   begin
      for I in 1 .. Last loop
         Top := new Cell'(I, Top);
      end loop;
      while Top /= null loop
         declare
            Rest : Chain;
         begin
            Total := Total + Top.Value;
            Rest := Top.Next;
            Top.Next := null;
            Free (Top);
            Top := Rest;
         end;
      end loop;
      Ada.Text_IO.Put_Line (Integer'Image (Total));
   end Sum;
begin
   Sum (3);
   Sum (4);
end Main;
