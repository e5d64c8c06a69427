with Ada.Text_IO; with Ada.Unchecked_Deallocation; with Run_Input;
procedure Main is
   type Entry_Cell is record
      Value : Integer := 0;
      Place : Integer := 0;
   end record;
   type Link is access Entry_Cell;
   procedure Free is new Ada.Unchecked_Deallocation (Entry_Cell, Link);

   Largest : Link;
   Count : Integer := 0;
begin
   begin
      loop
         declare
            Number : Integer := 0;
            Next : Link;
         begin
            Run_Input.Get (Number);
            Count := Count + 1;
            Next := new Entry_Cell'(Value => Number, Place => Count);
            if Largest = null then
               Largest := Next;
            elsif Next.Value > Largest.Value then
               Free (Largest);
               Largest := Next;
            else
               Free (Next);
            end if;
         end;
      end loop;
   exception
      when Run_Input.End_Error =>
         Ada.Text_IO.Put_Line ("the largest and its place");
   end;
   if Largest /= null then
      Ada.Text_IO.Put_Line (Integer'Image (Largest.Value));
      Ada.Text_IO.Put_Line (Integer'Image (Largest.Place));
   end if;
end Main;
