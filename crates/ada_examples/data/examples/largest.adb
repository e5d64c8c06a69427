with Ada.Text_IO; with Ada.Unchecked_Deallocation;
procedure Main is
   type Cell is record Value : Integer := 0; end record;
   type Link is access Cell;
   procedure Free is new Ada.Unchecked_Deallocation (Cell, Link);
   N : Integer := 0;
   Best : Link;
   Next : Link;
begin
   while N < 5 loop
      N := N + 1;
      Next := new Cell'(Value => N * (6 - N));
      if Best = null or else Best.Value < Next.Value then
         Free (Best);
         Best := Next;
         Next := null;
      else
         Free (Next);
      end if;
   end loop;
   Ada.Text_IO.Put_Line (Integer'Image (Best.Value));
   Free (Best);
end Main;
